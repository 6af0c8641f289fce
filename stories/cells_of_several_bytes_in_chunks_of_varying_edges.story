Cells of several bytes are written into chunks of varying edges, and read from them.

# Edges of 1, 1 and 4, of which the last one passes the array.
> {"op":"create","path":"/a","document":$zeros{"shape":[5],"data_type":"uint16","chunk_grid":{"name":"rectilinear","configuration":{"kind":"inline","chunk_shapes":[[[1,2],4]]}},"fill_value":255,"codecs":[{"name":"bytes","configuration":{"endian":"big"}}]}}
> {"op":"write_box","path":"/a","box":[[0,5]],"cells":[1,2,3,4,256]}
< {"done":true}
> {"op":"read_box","path":"/a","box":[[1,6]]}
< {"cells":[2,3,4,256,255]}
> {"op":"read_box","path":"/a","box":[[5,7]]}
< {"applied":0,"refused":"Region"}
# Rows of 1 and 2, columns of 2 and 1.
> {"op":"create","path":"/b","document":$zeros{"shape":[3,3],"data_type":"int32","chunk_grid":{"name":"rectangular","configuration":{"chunk_shape":[[1,2],[2,1]]}},"fill_value":-1,"codecs":[{"name":"bytes","configuration":{"endian":"little"}}]}}
> {"op":"write_box","path":"/b","box":[[0,2],[1,3]],"cells":[1,-2,3,256]}
< {"done":true}
> {"op":"read_chunk","path":"/b","chunk":[1,1]}
< {"cells":[256,-1]}
> {"op":"read_box","path":"/b","box":[[0,3],[0,3]]}
< {"cells":[-1,1,-2,-1,3,256,-1,-1,-1]}

after:
  a/c/0 = 00 01
  a/c/1 = 00 02
  a/c/2 = 00 03 00 04 01 00 00 ff
  a/zarr.json = $stored{"shape":[5],"data_type":"uint16","chunk_grid":{"name":"rectilinear","configuration":{"kind":"inline","chunk_shapes":[[[1,2],4]]}},"fill_value":255,"codecs":[{"name":"bytes","configuration":{"endian":"big"}}]}
  b/c/0/0 = ff ff ff ff 01 00 00 00
  b/c/0/1 = fe ff ff ff
  b/c/1/0 = ff ff ff ff 03 00 00 00 ff ff ff ff ff ff ff ff
  b/c/1/1 = 00 01 00 00 ff ff ff ff
  b/zarr.json = $stored{"shape":[3,3],"data_type":"int32","chunk_grid":{"name":"rectangular","configuration":{"chunk_shape":[[1,2],[2,1]]}},"fill_value":-1,"codecs":[{"name":"bytes","configuration":{"endian":"little"}}]}
