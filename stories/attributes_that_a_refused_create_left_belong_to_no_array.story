What a refused create of version 2 leaves is .zattrs alone: it is replaced by another create of version 2, stays beside one of version 3, and says nothing of what is stored for chunks.

before:
  a/.zattrs = {"x":1}
  b/.zattrs = {"x":1}
  c/.zattrs = "x"
  c/0.0 = 01 02 03 04

> {"op":"create","path":"/a","document":$version_2}
> {"op":"create","path":"/b","document":$zeros}
> {"op":"create","path":"/c","document":$version_2}
< {"done":true}
> {"op":"read_box","path":"/a","box":[[0,1],[0,4]]}
> {"op":"read_box","path":"/b","box":[[0,1],[0,4]]}
< {"cells":[0,0,0,0]}
> {"op":"read_box","path":"/c","box":[[0,1],[0,4]]}
< {"cells":[1,2,0,0]}

after:
  a/.zarray = $zarray
  a/.zattrs = $zattrs
  b/.zattrs = {"x":1}
  b/zarr.json = $stored
  c/.zarray = $zarray
  c/.zattrs = $zattrs
  c/0.0 = 01 02 03 04
