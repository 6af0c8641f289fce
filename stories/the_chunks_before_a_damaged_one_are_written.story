A write that comes upon damage has written the chunks before it, and says how many.

before:
  a/c/1/0 = 09

> {"op":"create","path":"/a","document":$zeros}
< {"done":true}
> {"op":"write_box","path":"/a","box":[[1,3],[1,3]],"cells":[1,2,3,4]}
< {"applied":2,"refused":"Damage"}
> {"op":"read_box","path":"/a","box":[[0,2],[0,4]]}
< {"cells":[0,0,0,0,0,1,2,0]}

after:
  a/c/0/0 = 00 00 00 01
  a/c/0/1 = 00 00 02 00
  a/c/1/0 = 09
  a/zarr.json = $stored
