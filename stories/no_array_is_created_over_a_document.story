Where a document of version 2 or 3 is stored, whatever it says, no array is created.

before:
  a/.zarray = "x"
  a/c/0/0 = 01 02 03 04
  b/c/0/0 = 01 02 03 04
  b/zarr.json = "x"

> {"op":"create","path":"/a","document":$zeros}
> {"op":"create","path":"/b","document":$zeros}
> {"op":"create","path":"/a","document":$version_2}
> {"op":"create","path":"/b","document":$version_2}
< {"applied":0,"refused":"PathTaken"}
> {"op":"read_box","path":"/a","box":[[1,3],[1,3]]}
> {"op":"read_box","path":"/b","box":[[1,3],[1,3]]}
< {"applied":0,"refused":"NoArray"}

after: as before
