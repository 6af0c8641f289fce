A fill value of version 2 that is null stands for zero or false, and is stored as null. For booleans 0 and 1 stand for false and true.

> {"op":"create","path":"/a","document":$version_2{"shape":[2],"chunks":[2],"dtype":"<i2","fill_value":null}}
> {"op":"create","path":"/b","document":$version_2{"shape":[2],"chunks":[2],"dtype":"|b1","fill_value":null}}
> {"op":"create","path":"/c","document":$version_2{"shape":[2],"chunks":[2],"dtype":"|b1","fill_value":0}}
> {"op":"create","path":"/d","document":$version_2{"shape":[2],"chunks":[2],"dtype":"|b1","fill_value":1}}
> {"op":"create","path":"/e","document":$version_2{"shape":[2],"chunks":[2],"dtype":">i4","fill_value":-7}}
< {"done":true}
> {"op":"create","path":"/f","document":$version_2{"dtype":"|b1","fill_value":2}}
> {"op":"create","path":"/f","document":$version_2{"fill_value":256}}
> {"op":"create","path":"/f","document":$version_2{"fill_value":-1}}
> {"op":"create","path":"/f","document":$version_2{"fill_value":true}}
> {"op":"create","path":"/f","document":$version_2{"fill_value":"0"}}
> {"op":"create","path":"/f","document":$version_2{"fill_value":0.0}}
< {"applied":0,"refused":"Document"}
> {"op":"read_box","path":"/a","box":[[0,2]]}
< {"cells":[0,0]}
> {"op":"read_box","path":"/b","box":[[0,2]]}
> {"op":"read_box","path":"/c","box":[[0,2]]}
< {"cells":[false,false]}
> {"op":"read_box","path":"/d","box":[[0,2]]}
< {"cells":[true,true]}
> {"op":"read_box","path":"/e","box":[[0,2]]}
< {"cells":[-7,-7]}
# A chunk of fill has no key.
> {"op":"write_box","path":"/a","box":[[0,2]],"cells":[0,0]}
> {"op":"write_box","path":"/d","box":[[0,2]],"cells":[true,true]}
> {"op":"write_box","path":"/e","box":[[0,1]],"cells":[1]}
< {"done":true}

after:
  a/.zarray = $zarray{"shape":[2],"chunks":[2],"dtype":"<i2","fill_value":null}
  a/.zattrs = $zattrs
  b/.zarray = $zarray{"shape":[2],"chunks":[2],"dtype":"|b1","fill_value":null}
  b/.zattrs = $zattrs
  c/.zarray = $zarray{"shape":[2],"chunks":[2],"dtype":"|b1","fill_value":0}
  c/.zattrs = $zattrs
  d/.zarray = $zarray{"shape":[2],"chunks":[2],"dtype":"|b1","fill_value":1}
  d/.zattrs = $zattrs
  e/.zarray = $zarray{"shape":[2],"chunks":[2],"dtype":">i4","fill_value":-7}
  e/.zattrs = $zattrs
  e/0 = 00 00 00 01 ff ff ff f9
