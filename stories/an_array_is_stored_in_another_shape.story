Before `bytes`, a chunk can lose its dimensions of size one. Its elements stay in their order, unless they are then transposed.

> {"op":"create","path":"/r","document":$zeros{"shape":[1,2,3],"chunk_grid":{"name":"regular","configuration":{"chunk_shape":[1,2,3]}},"codecs":["squeeze",{"name":"transpose","configuration":{"order":[1,0]}},"bytes"]}}
> {"op":"write_box","path":"/r","box":[[0,1],[0,2],[0,3]],"cells":[1,2,3,4,5,6]}
> {"op":"create","path":"/s","document":$zeros{"shape":[1,3,1],"chunk_grid":{"name":"regular","configuration":{"chunk_shape":[1,3,1]}},"codecs":["squeeze","bytes"]}}
> {"op":"write_box","path":"/s","box":[[0,1],[0,3],[0,1]],"cells":[1,2,3]}
< {"done":true}
> {"op":"read_box","path":"/r","box":[[0,1],[1,2],[0,2]]}
< {"cells":[4,5]}
> {"op":"read_box","path":"/s","box":[[0,1],[1,3],[0,1]]}
< {"cells":[2,3]}

after:
  r/c/0/0/0 = 01 04 02 05 03 06
  r/zarr.json = $stored{"shape":[1,2,3],"chunk_grid":{"name":"regular","configuration":{"chunk_shape":[1,2,3]}},"codecs":["squeeze",{"name":"transpose","configuration":{"order":[1,0]}},"bytes"]}
  s/c/0/0/0 = 01 02 03
  s/zarr.json = $stored{"shape":[1,3,1],"chunk_grid":{"name":"regular","configuration":{"chunk_shape":[1,3,1]}},"codecs":["squeeze","bytes"]}
