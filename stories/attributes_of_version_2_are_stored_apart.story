The attributes that a document of version 2 is given with are stored as .zattrs, with one of zarrs among them, and not in .zarray.

> {"op":"create","path":"/a","document":$version_2{"attributes":{"units":"m","b":[1,{"c":null}]}}}
> {"op":"create","path":"/b","document":$version_2{"attributes":{}}}
> {"op":"create","path":"/c","document":$version_2{"attributes":{"_zarrs":1,"Z":[2]}}}
< {"done":true}
> {"op":"create","path":"/d","document":$version_2{"attributes":null}}
> {"op":"create","path":"/d","document":$version_2{"attributes":[]}}
> {"op":"create","path":"/d","document":$version_2{"attributes":"x"}}
> {"op":"create","path":"/d","document":$version_2{"attributes":{"a":1.5}}}
< {"applied":0,"refused":"Document"}
# A held array's document is the one that was stored.
> {"op":"reopen","path":"/a"}
> {"op":"reopen","path":"/c","order":"C"}
< {"done":true}

after:
  a/.zarray = $zarray
  a/.zattrs = $zattrs{"b":[1,{"c":null}],"units":"m"}
  b/.zarray = $zarray
  b/.zattrs = $zattrs
  c/.zarray = $zarray
  c/.zattrs = $zattrs{"Z":[2]}
