Before `bytes`, the elements of a chunk can be stored in another order of dimensions.

> {"op":"create","path":"/t","document":$zeros{"shape":[2,3],"chunk_grid":{"name":"regular","configuration":{"chunk_shape":[2,3]}},"codecs":[{"name":"transpose","configuration":{"order":[1,0]}},"bytes"]}}
> {"op":"write_box","path":"/t","box":[[0,2],[0,3]],"cells":[0,1,2,3,4,5]}
< {"done":true}
> {"op":"read_box","path":"/t","box":[[0,2],[0,3]]}
> {"op":"read_chunk","path":"/t","chunk":[0,0]}
< {"cells":[0,1,2,3,4,5]}
# Parts are read by their places in the array.
> {"op":"read_box","path":"/t","box":[[0,2],[1,2]]}
< {"cells":[1,4]}
> {"op":"read_box","path":"/t","box":[[1,2],[0,3]]}
< {"cells":[3,4,5]}
# A write in part keeps the other cells.
> {"op":"write_box","path":"/t","box":[[1,2],[1,3]],"cells":[40,50]}
< {"done":true}
> {"op":"read_box","path":"/t","box":[[0,2],[0,3]]}
< {"cells":[0,1,2,3,40,50]}
> {"op":"write_box","path":"/t","box":[[1,2],[1,3]],"cells":[4,5]}
< {"done":true}

after:
  t/c/0/0 = 00 03 01 04 02 05
  t/zarr.json = $stored{"shape":[2,3],"chunk_grid":{"name":"regular","configuration":{"chunk_shape":[2,3]}},"codecs":[{"name":"transpose","configuration":{"order":[1,0]}},"bytes"]}
