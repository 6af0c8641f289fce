A box that intersects four chunks is written into each of them, and read from them.

> {"op":"create","path":"/a","document":$zeros}
< {"done":true}
> {"op":"write_box","path":"/a","box":[[1,3],[1,3]],"cells":[1,2,3,4]}
< {"done":true}
> {"op":"read_box","path":"/a","box":[[0,4],[1,3]]}
< {"cells":[0,0,1,2,3,4,0,0]}
> {"op":"write_box","path":"/a","box":[[3,5],[0,1]],"cells":[1,2]}
< {"applied":0,"refused":"Region"}

after:
  a/c/0/0 = 00 00 00 01
  a/c/0/1 = 00 00 02 00
  a/c/1/0 = 00 03 00 00
  a/c/1/1 = 04 00 00 00
  a/zarr.json = $stored
