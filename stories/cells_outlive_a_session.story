Cells are the same after reopenings, in the same session and in a later one over its store.

> {"op":"create","path":"/a","document":$zeros}
> {"op":"write_box","path":"/a","box":[[1,3],[1,3]],"cells":[1,2,3,4]}
> {"op":"reopen","path":"/a","order":"C"}
< {"done":true}
> {"op":"read_box","path":"/a","box":[[0,4],[1,3]]}
< {"cells":[0,0,1,2,3,4,0,0]}
> {"op":"reopen","path":"/a","order":"C"}
< {"done":true}
> {"op":"read_box","path":"/a","box":[[0,4],[1,3]]}
< {"cells":[0,0,1,2,3,4,0,0]}

after:
  a/c/0/0 = 00 00 00 01
  a/c/0/1 = 00 00 02 00
  a/c/1/0 = 00 03 00 00
  a/c/1/1 = 04 00 00 00
  a/zarr.json = $stored

> {"op":"reopen","path":"/a","order":"C"}
< {"done":true}
> {"op":"read_box","path":"/a","box":[[0,4],[1,3]]}
< {"cells":[0,0,1,2,3,4,0,0]}
> {"op":"write_box","path":"/a","box":[[0,1],[0,1]],"cells":[9]}
> {"op":"reopen","path":"/a","order":"C"}
< {"done":true}
> {"op":"read_box","path":"/a","box":[[0,2],[0,2]]}
< {"cells":[9,0,0,1]}

after:
  a/c/0/0 = 09 00 00 01
  a/c/0/1 = 00 00 02 00
  a/c/1/0 = 00 03 00 00
  a/c/1/1 = 04 00 00 00
  a/zarr.json = $stored
