No array is opened where .zarray holds no document of version 2, or one that isn't whole.

before:
  a/.zarray = "null"
  b/.zarray = "{}"
  c/.zarray = "[2]"
  d/.zarray = ff
  e/.zarray =
  f/.zarray = $zarray{"zarr_format":3}
  g/.zarray = $zeros
  h/.zarray = $zarray{"zarr_format":"2"}
  i/.zarray = $zarray{"zarr_format":2.0}
  j/.zarray = "{\"chunks\":[2,2],\"compressor\":null,\"dtype\":\"|u1\",\"fill_value\":0,\"order\":\"C\",\"shape\":[4,4],\"zarr_format\":2}"
  k/.zarray = "{\"chunks\":[2,2],\"dtype\":\"|u1\",\"fill_value\":0,\"filters\":null,\"order\":\"C\",\"shape\":[4,4],\"zarr_format\":2}"
  l/.zarray = $zarray{"order":"A"}
  m/.zarray = $zarray{"chunks":[2]}
  n/.zarray = $zarray{"chunks":[2,0]}
  o/.zarray = $zarray{"shape":4}
  p/.zarray = "{\"chunks\":[2,2],\"compressor\":null,\"dtype\":\"|u1\",\"fill_value\":0,\"filters\":null,\"order\":\"C\",\"shape\":[4,4],\"zarr_format\":2"
  q/.zattrs = $zattrs

> {"op":"reopen","path":"/a"}
> {"op":"reopen","path":"/b"}
> {"op":"reopen","path":"/c"}
> {"op":"reopen","path":"/d"}
> {"op":"reopen","path":"/e"}
> {"op":"reopen","path":"/f"}
> {"op":"reopen","path":"/g"}
> {"op":"reopen","path":"/h"}
> {"op":"reopen","path":"/i"}
# A field is missing: filters, and the compressor.
> {"op":"reopen","path":"/j"}
> {"op":"reopen","path":"/k"}
> {"op":"reopen","path":"/l"}
> {"op":"reopen","path":"/m"}
> {"op":"reopen","path":"/n"}
> {"op":"reopen","path":"/o"}
> {"op":"reopen","path":"/p"}
< {"applied":0,"refused":"Document"}
# Attributes alone are no document.
> {"op":"reopen","path":"/q"}
> {"op":"read_box","path":"/a","box":[[0,0],[0,0]]}
< {"applied":0,"refused":"NoArray"}

after: as before
