A chunk of shape [1,2,1,2,3] that is squeezed has the bytes of one of shape [2,2,3], and is transposed as that is.

> {"op":"create","path":"/a","document":$zeros{"shape":[1,2,1,2,3],"chunk_grid":{"name":"regular","configuration":{"chunk_shape":[1,2,1,2,3]}},"codecs":["squeeze","bytes"]}}
> {"op":"write_box","path":"/a","box":[[0,1],[0,2],[0,1],[0,2],[0,3]],"cells":[1,2,3,4,5,6,7,8,9,10,11,12]}
> {"op":"create","path":"/b","document":$zeros{"shape":[2,2,3],"chunk_grid":{"name":"regular","configuration":{"chunk_shape":[2,2,3]}}}}
> {"op":"write_box","path":"/b","box":[[0,2],[0,2],[0,3]],"cells":[1,2,3,4,5,6,7,8,9,10,11,12]}
> {"op":"create","path":"/c","document":$zeros{"shape":[1,2,1,2,3],"chunk_grid":{"name":"regular","configuration":{"chunk_shape":[1,2,1,2,3]}},"codecs":["squeeze",{"name":"transpose","configuration":{"order":[2,0,1]}},"bytes"]}}
> {"op":"write_box","path":"/c","box":[[0,1],[0,2],[0,1],[0,2],[0,3]],"cells":[1,2,3,4,5,6,7,8,9,10,11,12]}
< {"done":true}
# The places are those of the array, with its dimensions of size one.
> {"op":"read_box","path":"/a","box":[[0,1],[1,2],[0,1],[0,2],[1,2]]}
> {"op":"read_box","path":"/b","box":[[1,2],[0,2],[1,2]]}
> {"op":"read_box","path":"/c","box":[[0,1],[1,2],[0,1],[0,2],[1,2]]}
< {"cells":[8,11]}

after:
  a/c/0/0/0/0/0 = 01 02 03 04 05 06 07 08 09 0a 0b 0c
  a/zarr.json = $stored{"shape":[1,2,1,2,3],"chunk_grid":{"name":"regular","configuration":{"chunk_shape":[1,2,1,2,3]}},"codecs":["squeeze","bytes"]}
  b/c/0/0/0 = 01 02 03 04 05 06 07 08 09 0a 0b 0c
  b/zarr.json = $stored{"shape":[2,2,3],"chunk_grid":{"name":"regular","configuration":{"chunk_shape":[2,2,3]}}}
  c/c/0/0/0/0/0 = 01 04 07 0a 02 05 08 0b 03 06 09 0c
  c/zarr.json = $stored{"shape":[1,2,1,2,3],"chunk_grid":{"name":"regular","configuration":{"chunk_shape":[1,2,1,2,3]}},"codecs":["squeeze",{"name":"transpose","configuration":{"order":[2,0,1]}},"bytes"]}
