A rewrite leaves the cells of its array, and the keys of others, as they were.

before:
  b/c/0/1 = 00 00 00 00

> {"op":"create","path":"/a","document":$zeros}
> {"op":"write_box","path":"/a","box":[[1,3],[1,3]],"cells":[1,2,3,4]}
> {"op":"erase_chunks","path":"/a","box":[[0,1],[0,2]]}
> {"op":"rewrite","path":"/a"}
< {"done":true}
> {"op":"read_box","path":"/a","box":[[0,4],[0,4]]}
< {"cells":[0,0,0,0,0,0,0,0,0,3,4,0,0,0,0,0]}
# A chunk that lies past the array as a whole, and whose fill value is not 0.
> {"op":"create","path":"/c","document":$zeros{"shape":[6,6],"chunk_grid":{"name":"rectilinear","configuration":{"kind":"inline","chunk_shapes":[[[4,3]],[3,3,3]]}},"fill_value":200}}
> {"op":"write_box","path":"/c","box":[[8,12],[6,9]],"cells":[1,2,3,4,5,6,7,8,9,10,11,12]}
> {"op":"write_chunk","path":"/c","chunk":[0,0],"cells":[200,200,200,200,200,200,200,200,200,200,200,200],"options":{"empty":true}}
> {"op":"rewrite","path":"/c"}
< {"done":true}
> {"op":"read_box","path":"/c","box":[[7,9],[6,8]]}
< {"cells":[200,200,1,2]}

after:
  a/c/1/0 = 00 03 00 00
  a/c/1/1 = 04 00 00 00
  a/zarr.json = $stored
  b/c/0/1 = 00 00 00 00
  c/c/2/2 = 01 02 03 04 05 06 07 08 09 0a 0b 0c
  c/zarr.json = $stored{"shape":[6,6],"chunk_grid":{"name":"rectilinear","configuration":{"kind":"inline","chunk_shapes":[[[4,3]],[3,3,3]]}},"fill_value":200}
