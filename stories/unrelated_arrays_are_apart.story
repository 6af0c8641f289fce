Arrays at unrelated paths have cells of their own, also where one path is the start of the other's name.

> {"op":"create","path":"/a","document":$zeros}
< {"done":true}
> {"op":"create","path":"/a/b","document":$zeros}
> {"op":"create","path":"/a","document":$zeros}
> {"op":"create","path":"/","document":$zeros}
< {"applied":0,"refused":"PathTaken"}
> {"op":"create","path":"/ab","document":$zeros}
> {"op":"write_box","path":"/a","box":[[1,3],[1,3]],"cells":[1,2,3,4]}
> {"op":"write_box","path":"/ab","box":[[1,3],[1,3]],"cells":[5,6,7,8]}
< {"done":true}
> {"op":"read_box","path":"/a","box":[[0,4],[1,3]]}
< {"cells":[0,0,1,2,3,4,0,0]}
> {"op":"read_box","path":"/ab","box":[[0,4],[1,3]]}
< {"cells":[0,0,5,6,7,8,0,0]}
> {"op":"erase_chunks","path":"/a","box":[[0,2],[0,2]]}
< {"done":true}
> {"op":"read_box","path":"/a","box":[[1,3],[1,3]]}
< {"cells":[0,0,0,0]}
> {"op":"read_box","path":"/ab","box":[[1,3],[1,3]]}
< {"cells":[5,6,7,8]}

after:
  a/zarr.json = $stored
  ab/c/0/0 = 00 00 00 05
  ab/c/0/1 = 00 00 06 00
  ab/c/1/0 = 00 07 00 00
  ab/c/1/1 = 08 00 00 00
  ab/zarr.json = $stored
