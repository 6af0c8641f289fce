Chunks of varying edges are written and read, also one that lies past the array as a whole.

> {"op":"create","path":"/a","document":$zeros{"shape":[6,6],"chunk_grid":{"name":"rectilinear","configuration":{"kind":"inline","chunk_shapes":[[[4,3]],[3,3,3]]}},"fill_value":200}}
> {"op":"write_box","path":"/a","box":[[8,12],[6,9]],"cells":[1,2,3,4,5,6,7,8,9,10,11,12]}
< {"done":true}
> {"op":"read_box","path":"/a","box":[[7,9],[6,8]]}
< {"cells":[200,200,1,2]}
# The cell at [5,5] is at [1,2] of the chunk [1,1], and there are three chunks by three.
> {"op":"write_box","path":"/a","box":[[5,6],[5,6]],"cells":[7]}
< {"done":true}
> {"op":"erase_chunks","path":"/a","box":[[3,4],[0,1]]}
> {"op":"erase_chunks","path":"/a","box":[[0,1],[3,4]]}
< {"applied":0,"refused":"Region"}
> {"op":"create","path":"/b","document":$zeros{"shape":[6],"chunk_grid":{"name":"rectangular","configuration":{"chunk_shape":[[1,3,2]]}},"fill_value":200}}
> {"op":"write_box","path":"/b","box":[[0,5]],"cells":[1,2,3,4,5]}
< {"done":true}
# Seven chunks by ten; the cell at [17,17] is at [2,7] of a chunk of 15 by 10.
> {"op":"create","path":"/c","document":$zeros{"shape":[100,100],"chunk_grid":{"name":"rectangular","configuration":{"chunk_shape":[[5,5,5,15,15,20,35],10]}}}}
> {"op":"write_box","path":"/c","box":[[17,18],[17,18]],"cells":[9]}
> {"op":"erase_chunks","path":"/c","box":[[6,7],[9,10]]}
< {"done":true}
> {"op":"erase_chunks","path":"/c","box":[[6,8],[9,10]]}
> {"op":"erase_chunks","path":"/c","box":[[6,7],[9,11]]}
< {"applied":0,"refused":"Region"}
> {"op":"read_box","path":"/c","box":[[16,18],[16,19]]}
< {"cells":[0,0,0,0,9,0]}

after:
  a/c/1/1 = c8 c8 c8 c8 c8 07 c8 c8 c8 c8 c8 c8
  a/c/2/2 = 01 02 03 04 05 06 07 08 09 0a 0b 0c
  a/zarr.json = $stored{"shape":[6,6],"chunk_grid":{"name":"rectilinear","configuration":{"kind":"inline","chunk_shapes":[[[4,3]],[3,3,3]]}},"fill_value":200}
  b/c/0 = 01
  b/c/1 = 02 03 04
  b/c/2 = 05 c8
  b/zarr.json = $stored{"shape":[6],"chunk_grid":{"name":"rectangular","configuration":{"chunk_shape":[[1,3,2]]}},"fill_value":200}
  c/c/3/1 = 00 00 00 00 00 00 00 00 00 00 00 00 00 00 00 00 00 00 00 00 00 00 00 00 00 00 00 09 00 00 00 00 00 00 00 00 00 00 00 00 00 00 00 00 00 00 00 00 00 00 00 00 00 00 00 00 00 00 00 00 00 00 00 00 00 00 00 00 00 00 00 00 00 00 00 00 00 00 00 00 00 00 00 00 00 00 00 00 00 00 00 00 00 00 00 00 00 00 00 00 00 00 00 00 00 00 00 00 00 00 00 00 00 00 00 00 00 00 00 00 00 00 00 00 00 00 00 00 00 00 00 00 00 00 00 00 00 00 00 00 00 00 00 00 00 00 00 00 00 00
  c/zarr.json = $stored{"shape":[100,100],"chunk_grid":{"name":"rectangular","configuration":{"chunk_shape":[[5,5,5,15,15,20,35],10]}}}
