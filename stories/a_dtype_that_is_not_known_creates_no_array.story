A dtype of version 2 that has no data type is refused. Cells of several bytes have a byte order, and a boolean has none.

> {"op":"create","path":"/a","document":$version_2{"dtype":"<b1"}}
> {"op":"create","path":"/a","document":$version_2{"dtype":">b1"}}
> {"op":"create","path":"/a","document":$version_2{"dtype":"|i2"}}
> {"op":"create","path":"/a","document":$version_2{"dtype":"i2"}}
> {"op":"create","path":"/a","document":$version_2{"dtype":"=i2"}}
> {"op":"create","path":"/a","document":$version_2{"dtype":"<i3"}}
> {"op":"create","path":"/a","document":$version_2{"dtype":"<f4"}}
> {"op":"create","path":"/a","document":$version_2{"dtype":"|S4","fill_value":""}}
> {"op":"create","path":"/a","document":$version_2{"dtype":"uint8"}}
> {"op":"create","path":"/a","document":$version_2{"dtype":[["x","<i2"]]}}
> {"op":"create","path":"/a","document":$version_2{"dtype":null}}
< {"applied":0,"refused":"Document"}
> {"op":"create","path":"/a","document":$version_2}
< {"done":true}

after:
  a/.zarray = $zarray
  a/.zattrs = $zattrs
