The keys of an array at the root begin with no folder, and every other path lies below it.

> {"op":"create","path":"/","document":$zeros}
< {"done":true}
> {"op":"create","path":"/","document":$zeros}
> {"op":"create","path":"/a","document":$zeros}
> {"op":"create","path":"/a/b","document":$zeros}
> {"op":"create","path":"/c","document":$zeros}
> {"op":"create","path":"/zarr.json","document":$zeros}
< {"applied":0,"refused":"PathTaken"}
> {"op":"write_chunk","path":"/","chunk":[0,0],"cells":[1,2,3,4]}
> {"op":"reopen","path":"/"}
< {"done":true}
> {"op":"read_chunk","path":"/","chunk":[0,0]}
< {"cells":[1,2,3,4]}

after:
  c/0/0 = 01 02 03 04
  zarr.json = $stored

> {"op":"reopen","path":"/"}
> {"op":"erase_chunks","path":"/","box":[[0,1],[0,1]]}
> {"op":"write_box","path":"/","box":[[1,3],[1,3]],"cells":[1,2,3,4]}
< {"done":true}
> {"op":"read_box","path":"/","box":[[1,3],[1,3]]}
< {"cells":[1,2,3,4]}

after:
  c/0/0 = 00 00 00 01
  c/0/1 = 00 00 02 00
  c/1/0 = 00 03 00 00
  c/1/1 = 04 00 00 00
  zarr.json = $stored
