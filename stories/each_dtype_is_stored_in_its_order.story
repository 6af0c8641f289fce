Each dtype of version 2 has a data type and, where its cells have several bytes, their order. One byte has none, whatever its mark is.

> {"op":"create","path":"/b1","document":$version_2{"shape":[2],"chunks":[2],"dtype":"|b1","fill_value":false}}
> {"op":"write_box","path":"/b1","box":[[0,2]],"cells":[true,false]}
> {"op":"create","path":"/i1","document":$version_2{"shape":[2],"chunks":[2],"dtype":"|i1"}}
> {"op":"write_box","path":"/i1","box":[[0,2]],"cells":[-1,127]}
> {"op":"create","path":"/i1b","document":$version_2{"shape":[2],"chunks":[2],"dtype":">i1"}}
> {"op":"write_box","path":"/i1b","box":[[0,2]],"cells":[-128,1]}
> {"op":"create","path":"/u1l","document":$version_2{"shape":[2],"chunks":[2],"dtype":"<u1"}}
> {"op":"write_box","path":"/u1l","box":[[0,2]],"cells":[255,1]}
> {"op":"create","path":"/i2l","document":$version_2{"shape":[2],"chunks":[2],"dtype":"<i2"}}
> {"op":"write_box","path":"/i2l","box":[[0,2]],"cells":[-2,258]}
> {"op":"create","path":"/i2b","document":$version_2{"shape":[2],"chunks":[2],"dtype":">i2"}}
> {"op":"write_box","path":"/i2b","box":[[0,2]],"cells":[-2,258]}
> {"op":"create","path":"/i4l","document":$version_2{"shape":[2],"chunks":[2],"dtype":"<i4"}}
> {"op":"write_box","path":"/i4l","box":[[0,2]],"cells":[-2,16909060]}
> {"op":"create","path":"/i4b","document":$version_2{"shape":[2],"chunks":[2],"dtype":">i4"}}
> {"op":"write_box","path":"/i4b","box":[[0,2]],"cells":[-2,16909060]}
> {"op":"create","path":"/i8l","document":$version_2{"shape":[1],"chunks":[1],"dtype":"<i8"}}
> {"op":"write_box","path":"/i8l","box":[[0,1]],"cells":[-9223372036854775807]}
> {"op":"create","path":"/i8b","document":$version_2{"shape":[1],"chunks":[1],"dtype":">i8"}}
> {"op":"write_box","path":"/i8b","box":[[0,1]],"cells":[-9223372036854775807]}
> {"op":"create","path":"/u2l","document":$version_2{"shape":[2],"chunks":[2],"dtype":"<u2"}}
> {"op":"write_box","path":"/u2l","box":[[0,2]],"cells":[65534,258]}
> {"op":"create","path":"/u2b","document":$version_2{"shape":[2],"chunks":[2],"dtype":">u2"}}
> {"op":"write_box","path":"/u2b","box":[[0,2]],"cells":[65534,258]}
> {"op":"create","path":"/u4l","document":$version_2{"shape":[1],"chunks":[1],"dtype":"<u4"}}
> {"op":"write_box","path":"/u4l","box":[[0,1]],"cells":[4278255360]}
> {"op":"create","path":"/u4b","document":$version_2{"shape":[1],"chunks":[1],"dtype":">u4"}}
> {"op":"write_box","path":"/u4b","box":[[0,1]],"cells":[4278386688]}
> {"op":"create","path":"/u8l","document":$version_2{"shape":[1],"chunks":[1],"dtype":"<u8"}}
> {"op":"write_box","path":"/u8l","box":[[0,1]],"cells":[18446744073709551614]}
> {"op":"create","path":"/u8b","document":$version_2{"shape":[1],"chunks":[1],"dtype":">u8"}}
> {"op":"write_box","path":"/u8b","box":[[0,1]],"cells":[18446744073709551614]}
< {"done":true}
> {"op":"read_chunk","path":"/i2b","chunk":[0]}
< {"cells":[-2,258]}
> {"op":"read_chunk","path":"/i8l","chunk":[0]}
< {"cells":[-9223372036854775807]}
> {"op":"read_chunk","path":"/u4b","chunk":[0]}
< {"cells":[4278386688]}
> {"op":"write_box","path":"/i1b","box":[[0,1]],"cells":[128]}
> {"op":"write_box","path":"/u2b","box":[[0,1]],"cells":[-1]}
< {"applied":0,"refused":"Data"}

after:
  b1/.zarray = $zarray{"shape":[2],"chunks":[2],"dtype":"|b1","fill_value":false}
  b1/.zattrs = $zattrs
  b1/0 = 01 00
  i1/.zarray = $zarray{"shape":[2],"chunks":[2],"dtype":"|i1"}
  i1/.zattrs = $zattrs
  i1/0 = ff 7f
  i1b/.zarray = $zarray{"shape":[2],"chunks":[2],"dtype":">i1"}
  i1b/.zattrs = $zattrs
  i1b/0 = 80 01
  i2b/.zarray = $zarray{"shape":[2],"chunks":[2],"dtype":">i2"}
  i2b/.zattrs = $zattrs
  i2b/0 = ff fe 01 02
  i2l/.zarray = $zarray{"shape":[2],"chunks":[2],"dtype":"<i2"}
  i2l/.zattrs = $zattrs
  i2l/0 = fe ff 02 01
  i4b/.zarray = $zarray{"shape":[2],"chunks":[2],"dtype":">i4"}
  i4b/.zattrs = $zattrs
  i4b/0 = ff ff ff fe 01 02 03 04
  i4l/.zarray = $zarray{"shape":[2],"chunks":[2],"dtype":"<i4"}
  i4l/.zattrs = $zattrs
  i4l/0 = fe ff ff ff 04 03 02 01
  i8b/.zarray = $zarray{"shape":[1],"chunks":[1],"dtype":">i8"}
  i8b/.zattrs = $zattrs
  i8b/0 = 80 00 00 00 00 00 00 01
  i8l/.zarray = $zarray{"shape":[1],"chunks":[1],"dtype":"<i8"}
  i8l/.zattrs = $zattrs
  i8l/0 = 01 00 00 00 00 00 00 80
  u1l/.zarray = $zarray{"shape":[2],"chunks":[2],"dtype":"<u1"}
  u1l/.zattrs = $zattrs
  u1l/0 = ff 01
  u2b/.zarray = $zarray{"shape":[2],"chunks":[2],"dtype":">u2"}
  u2b/.zattrs = $zattrs
  u2b/0 = ff fe 01 02
  u2l/.zarray = $zarray{"shape":[2],"chunks":[2],"dtype":"<u2"}
  u2l/.zattrs = $zattrs
  u2l/0 = fe ff 02 01
  u4b/.zarray = $zarray{"shape":[1],"chunks":[1],"dtype":">u4"}
  u4b/.zattrs = $zattrs
  u4b/0 = ff 03 00 00
  u4l/.zarray = $zarray{"shape":[1],"chunks":[1],"dtype":"<u4"}
  u4l/.zattrs = $zattrs
  u4l/0 = 00 ff 00 ff
  u8b/.zarray = $zarray{"shape":[1],"chunks":[1],"dtype":">u8"}
  u8b/.zattrs = $zattrs
  u8b/0 = ff ff ff ff ff ff ff fe
  u8l/.zarray = $zarray{"shape":[1],"chunks":[1],"dtype":"<u8"}
  u8l/.zattrs = $zattrs
  u8l/0 = fe ff ff ff ff ff ff ff
