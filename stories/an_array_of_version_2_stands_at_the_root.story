The document of version 2 of an array at the root is stored under names without a folder.

> {"op":"create","path":"/","document":$version_2{"dimension_separator":"/"}}
> {"op":"write_box","path":"/","box":[[2,3],[0,1]],"cells":[1]}
< {"done":true}
> {"op":"create","path":"/a","document":$version_2}
< {"applied":0,"refused":"PathTaken"}

after:
  .zarray = $zarray{"dimension_separator":"/"}
  .zattrs = $zattrs
  1/0 = 01 00 00 00

> {"op":"reopen","path":"/"}
< {"done":true}
> {"op":"read_box","path":"/","box":[[2,4],[0,1]]}
< {"cells":[1,0]}

after: as before
