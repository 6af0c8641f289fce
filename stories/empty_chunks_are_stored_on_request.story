With the option for empty chunks, a chunk that a write makes all fill is stored.

> {"op":"create","path":"/a","document":$zeros}
> {"op":"write_box","path":"/a","box":[[1,3],[1,3]],"cells":[1,2,3,4]}
> {"op":"write_box","path":"/a","box":[[1,3],[1,3]],"cells":[0,0,0,0],"options":{"empty":true}}
< {"done":true}

after:
  a/c/0/0 = 00 00 00 00
  a/c/0/1 = 00 00 00 00
  a/c/1/0 = 00 00 00 00
  a/c/1/1 = 00 00 00 00
  a/zarr.json = $stored
