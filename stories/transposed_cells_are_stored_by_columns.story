Where the dimensions of a chunk are swapped before `bytes`, its columns are stored one after another.

> {"op":"create","path":"/t","document":$zeros{"shape":[2,3],"chunk_grid":{"name":"regular","configuration":{"chunk_shape":[2,3]}},"codecs":[{"name":"transpose","configuration":{"order":[1,0]}},"bytes"]}}
> {"op":"write_box","path":"/t","box":[[0,2],[0,3]],"cells":[1,2,3,4,5,6]}
< {"done":true}
> {"op":"read_box","path":"/t","box":[[0,2],[1,2]]}
< {"cells":[2,5]}

after:
  t/c/0/0 = 01 04 02 05 03 06
  t/zarr.json = $stored{"shape":[2,3],"chunk_grid":{"name":"regular","configuration":{"chunk_shape":[2,3]}},"codecs":[{"name":"transpose","configuration":{"order":[1,0]}},"bytes"]}
