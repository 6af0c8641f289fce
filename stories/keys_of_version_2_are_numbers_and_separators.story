The keys of chunks of version 2 are their indices with dots between them, or with slashes where the document says so. An array without dimensions has one chunk, 0.

> {"op":"create","path":"/a","document":$version_2}
> {"op":"write_box","path":"/a","box":[[2,3],[0,1]],"cells":[1]}
> {"op":"create","path":"/b","document":$version_2{"dimension_separator":"/"}}
> {"op":"write_box","path":"/b","box":[[2,3],[0,1]],"cells":[2]}
> {"op":"create","path":"/c","document":$version_2{"dimension_separator":"."}}
> {"op":"write_box","path":"/c","box":[[2,3],[0,1]],"cells":[3]}
# The last chunk passes the array, and is stored whole.
> {"op":"create","path":"/d/e","document":$version_2{"shape":[3],"chunks":[2],"dimension_separator":"/"}}
> {"op":"write_box","path":"/d/e","box":[[2,3]],"cells":[4]}
> {"op":"create","path":"/f","document":$version_2{"shape":[],"chunks":[],"order":"F"}}
> {"op":"write_box","path":"/f","box":[],"cells":[5]}
< {"done":true}
> {"op":"create","path":"/g","document":$version_2{"dimension_separator":"-"}}
> {"op":"create","path":"/g","document":$version_2{"dimension_separator":""}}
> {"op":"create","path":"/g","document":$version_2{"dimension_separator":null}}
< {"applied":0,"refused":"Document"}

after:
  a/.zarray = $zarray
  a/.zattrs = $zattrs
  a/1.0 = 01 00 00 00
  b/.zarray = $zarray{"dimension_separator":"/"}
  b/.zattrs = $zattrs
  b/1/0 = 02 00 00 00
  c/.zarray = $zarray
  c/.zattrs = $zattrs
  c/1.0 = 03 00 00 00
  d/e/.zarray = $zarray{"shape":[3],"chunks":[2],"dimension_separator":"/"}
  d/e/.zattrs = $zattrs
  d/e/1 = 04 00
  f/.zarray = $zarray{"shape":[],"chunks":[],"order":"F"}
  f/.zattrs = $zattrs
  f/0 = 05
