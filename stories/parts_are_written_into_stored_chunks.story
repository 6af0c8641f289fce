With the option for partial encoding, cells other than fill are put into what is stored, through `bytes`, `packbits`, `x-reverse` and `transpose`, and the cells beside them stay.

> {"op":"create","path":"/a","document":$zeros}
> {"op":"create","path":"/p","document":$zeros{"data_type":"int4","codecs":["packbits"]}}
> {"op":"create","path":"/r","document":$zeros{"codecs":["bytes","x-reverse"]}}
> {"op":"create","path":"/t","document":$zeros{"codecs":[{"name":"transpose","configuration":{"order":[1,0]}},"bytes"]}}
# Nothing is stored: the rest of each chunk is fill.
> {"op":"write_box","path":"/a","box":[[1,3],[1,3]],"cells":[1,2,3,4],"options":{"partial":true}}
> {"op":"write_box","path":"/p","box":[[1,3],[1,3]],"cells":[1,2,3,4],"options":{"partial":true}}
> {"op":"write_box","path":"/r","box":[[1,3],[1,3]],"cells":[1,2,3,4],"options":{"partial":true}}
> {"op":"write_box","path":"/t","box":[[1,3],[1,3]],"cells":[1,2,3,4],"options":{"partial":true}}
# A row of the first chunk, of which one cell was written before.
> {"op":"write_box","path":"/a","box":[[1,2],[0,2]],"cells":[5,6],"options":{"partial":true}}
> {"op":"write_box","path":"/p","box":[[1,2],[0,2]],"cells":[5,6],"options":{"partial":true}}
> {"op":"write_box","path":"/r","box":[[1,2],[0,2]],"cells":[5,6],"options":{"partial":true}}
> {"op":"write_box","path":"/t","box":[[1,2],[0,2]],"cells":[5,6],"options":{"partial":true}}
< {"done":true}
> {"op":"read_box","path":"/a","box":[[0,4],[0,4]]}
> {"op":"read_box","path":"/p","box":[[0,4],[0,4]]}
> {"op":"read_box","path":"/r","box":[[0,4],[0,4]]}
> {"op":"read_box","path":"/t","box":[[0,4],[0,4]]}
< {"cells":[0,0,0,0,5,6,2,0,0,3,4,0,0,0,0,0]}

after:
  a/c/0/0 = 00 00 05 06
  a/c/0/1 = 00 00 02 00
  a/c/1/0 = 00 03 00 00
  a/c/1/1 = 04 00 00 00
  a/zarr.json = $stored
  p/c/0/0 = 00 65
  p/c/0/1 = 00 02
  p/c/1/0 = 30 00
  p/c/1/1 = 04 00
  p/zarr.json = $stored{"data_type":"int4","codecs":["packbits"]}
  r/c/0/0 = 06 05 00 00
  r/c/0/1 = 00 02 00 00
  r/c/1/0 = 00 00 03 00
  r/c/1/1 = 00 00 00 04
  r/zarr.json = $stored{"codecs":["bytes","x-reverse"]}
  t/c/0/0 = 00 05 00 06
  t/c/0/1 = 00 02 00 00
  t/c/1/0 = 00 00 03 00
  t/c/1/1 = 04 00 00 00
  t/zarr.json = $stored{"codecs":[{"name":"transpose","configuration":{"order":[1,0]}},"bytes"]}

# In another session one cell becomes fill, and one gets another value.
> {"op":"reopen","path":"/a"}
> {"op":"reopen","path":"/p"}
> {"op":"write_box","path":"/a","box":[[1,2],[0,2]],"cells":[0,7],"options":{"partial":true}}
> {"op":"write_box","path":"/p","box":[[1,2],[0,2]],"cells":[0,7],"options":{"partial":true}}
< {"done":true}

after:
  a/c/0/0 = 00 00 00 07
  a/c/0/1 = 00 00 02 00
  a/c/1/0 = 00 03 00 00
  a/c/1/1 = 04 00 00 00
  a/zarr.json = $stored
  p/c/0/0 = 00 70
  p/c/0/1 = 00 02
  p/c/1/0 = 30 00
  p/c/1/1 = 04 00
  p/zarr.json = $stored{"data_type":"int4","codecs":["packbits"]}
  r/c/0/0 = 06 05 00 00
  r/c/0/1 = 00 02 00 00
  r/c/1/0 = 00 00 03 00
  r/c/1/1 = 00 00 00 04
  r/zarr.json = $stored{"codecs":["bytes","x-reverse"]}
  t/c/0/0 = 00 05 00 06
  t/c/0/1 = 00 02 00 00
  t/c/1/0 = 00 00 03 00
  t/c/1/1 = 04 00 00 00
  t/zarr.json = $stored{"codecs":[{"name":"transpose","configuration":{"order":[1,0]}},"bytes"]}
