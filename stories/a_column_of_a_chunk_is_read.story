A box of one column takes one cell of each of its rows.

> {"op":"create","path":"/a","document":$zeros{"chunk_grid":{"name":"regular","configuration":{"chunk_shape":[4,4]}}}}
> {"op":"write_chunk","path":"/a","chunk":[0,0],"cells":[0,1,2,3,4,5,6,7,8,9,10,11,12,13,14,15]}
< {"done":true}
> {"op":"read_box","path":"/a","box":[[1,3],[0,1]]}
< {"cells":[4,8]}

after:
  a/c/0/0 = 00 01 02 03 04 05 06 07 08 09 0a 0b 0c 0d 0e 0f
  a/zarr.json = $stored{"chunk_grid":{"name":"regular","configuration":{"chunk_shape":[4,4]}}}
