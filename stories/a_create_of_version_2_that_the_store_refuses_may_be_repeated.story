A create of version 2 writes .zattrs and then .zarray. Where the store refuses one of its calls no array is held, nothing is stored but .zattrs, and the same command is done afterwards.

# The first write is that of .zattrs.
before:
  refuse write 1

> {"op":"create","path":"/a","document":$version_2}
< {"applied":0,"refused":"Store"}
> {"op":"reopen","path":"/a"}
< {"applied":0,"refused":"NoArray"}

after:

before:
  refuse write 2

> {"op":"create","path":"/a","document":$version_2{"attributes":{"x":1}}}
< {"applied":0,"refused":"Store"}
> {"op":"read_box","path":"/a","box":[[0,4],[0,1]]}
> {"op":"reopen","path":"/a"}
< {"applied":0,"refused":"NoArray"}

after:
  a/.zattrs = $zattrs{"x":1}

before:
  refuse write 2

> {"op":"create","path":"/a","document":$version_2}
< {"applied":0,"refused":"Store"}
> {"op":"create","path":"/a","document":$version_2}
< {"done":true}
> {"op":"read_box","path":"/a","box":[[0,4],[0,1]]}
< {"cells":[0,0,0,0]}

after:
  a/.zarray = $zarray
  a/.zattrs = $zattrs

# It reads for a document of version 3, and then for one of version 2.
before:
  refuse read 1

> {"op":"create","path":"/b","document":$version_2}
< {"applied":0,"refused":"Store"}
> {"op":"create","path":"/b","document":$version_2}
< {"done":true}

after:
  a/.zarray = $zarray
  a/.zattrs = $zattrs
  b/.zarray = $zarray
  b/.zattrs = $zattrs

before:
  refuse read 2

> {"op":"create","path":"/c","document":$version_2}
< {"applied":0,"refused":"Store"}
> {"op":"create","path":"/c","document":$zeros}
< {"done":true}

after:
  a/.zarray = $zarray
  a/.zattrs = $zattrs
  b/.zarray = $zarray
  b/.zattrs = $zattrs
  c/zarr.json = $stored
