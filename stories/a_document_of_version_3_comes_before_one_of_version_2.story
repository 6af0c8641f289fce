Where a key of version 3 is stored at a path, what stands there for version 2 isn't looked at.

before:
  a/.zarray = $zarray
  a/.zattrs = "x"
  a/0.0 = 01 02 03 04
  a/c/0/0 = 05 06 07 08
  a/zarr.json = $zeros
  b/.zarray = $zarray
  b/zarr.json = "{}"
# A document of version 2 has names of its own.
  c/.zarray = $zarray
  c/zarr.json = $zarray
  d/zarr.json = $version_2

> {"op":"reopen","path":"/a"}
< {"done":true}
> {"op":"read_chunk","path":"/a","chunk":[0,0]}
< {"cells":[5,6,7,8]}
> {"op":"reopen","path":"/b"}
> {"op":"reopen","path":"/c"}
> {"op":"reopen","path":"/d"}
< {"applied":0,"refused":"Document"}
> {"op":"reopen","path":"/a"}
< {"done":true}

after: as before
