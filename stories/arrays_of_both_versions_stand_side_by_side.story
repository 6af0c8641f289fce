Arrays of versions 2 and 3 are held together, each with keys of its own. A path is taken for both.

> {"op":"create","path":"/a","document":$zeros}
> {"op":"create","path":"/b","document":$version_2{"dimension_separator":"/"}}
> {"op":"create","path":"/bc","document":$version_2}
< {"done":true}
> {"op":"create","path":"/a","document":$version_2}
> {"op":"create","path":"/a/d","document":$version_2}
> {"op":"create","path":"/b","document":$zeros}
> {"op":"create","path":"/b/d","document":$zeros}
> {"op":"create","path":"/","document":$version_2}
< {"applied":0,"refused":"PathTaken"}
> {"op":"write_box","path":"/a","box":[[1,3],[1,3]],"cells":[1,2,3,4]}
> {"op":"write_box","path":"/b","box":[[1,3],[1,3]],"cells":[5,6,7,8]}
> {"op":"write_box","path":"/bc","box":[[0,1],[0,1]],"cells":[9]}
> {"op":"erase_chunks","path":"/b","box":[[0,1],[0,2]]}
< {"done":true}
> {"op":"read_box","path":"/a","box":[[0,4],[1,3]]}
< {"cells":[0,0,1,2,3,4,0,0]}
> {"op":"read_box","path":"/b","box":[[0,4],[1,3]]}
< {"cells":[0,0,0,0,7,8,0,0]}
> {"op":"read_box","path":"/bc","box":[[0,1],[0,2]]}
< {"cells":[9,0]}

after:
  a/c/0/0 = 00 00 00 01
  a/c/0/1 = 00 00 02 00
  a/c/1/0 = 00 03 00 00
  a/c/1/1 = 04 00 00 00
  a/zarr.json = $stored
  b/.zarray = $zarray{"dimension_separator":"/"}
  b/.zattrs = $zattrs
  b/1/0 = 00 07 00 00
  b/1/1 = 08 00 00 00
  bc/.zarray = $zarray
  bc/.zattrs = $zattrs
  bc/0.0 = 09 00 00 00

> {"op":"reopen","path":"/bc"}
> {"op":"reopen","path":"/a"}
> {"op":"reopen","path":"/b"}
< {"done":true}
> {"op":"create","path":"/bc","document":$zeros}
< {"applied":0,"refused":"PathTaken"}
> {"op":"read_box","path":"/b","box":[[0,4],[1,3]]}
< {"cells":[0,0,0,0,7,8,0,0]}

after: as before
