A chunk that reaches past the array is stored whole, and its cells past the array are written and read.

> {"op":"create","path":"/a","document":$zeros{"shape":[3],"chunk_grid":{"name":"regular","configuration":{"chunk_shape":[2]}}}}
> {"op":"write_chunk","path":"/a","chunk":[1],"cells":[7,8]}
< {"done":true}
> {"op":"read_chunk","path":"/a","chunk":[1]}
> {"op":"read_box","path":"/a","box":[[2,4]]}
< {"cells":[7,8]}
> {"op":"read_box","path":"/a","box":[[4,5]]}
< {"applied":0,"refused":"Region"}

after:
  a/c/1 = 07 08
  a/zarr.json = $stored{"shape":[3],"chunk_grid":{"name":"regular","configuration":{"chunk_shape":[2]}}}
