The attributes of a stored document of version 2 are what .zattrs holds: where it is there, those in .zarray aren't looked at.

before:
  a/.zarray = $zarray
  a/0.0 = 01 02 03 04
  b/.zarray = $zarray{"attributes":{"a":1}}
  b/0.0 = 01 02 03 04
  c/.zarray = $zarray{"attributes":5}
  d/.zarray = $zarray{"attributes":5}
  d/.zattrs = {"units":"m"}
  d/0.0 = 01 02 03 04
  e/.zarray = $zarray
  e/.zattrs = "x"
  f/.zarray = $zarray
  f/.zattrs = "[]"
  g/.zarray = $zarray
  g/.zattrs = "null"
  h/.zarray = $zarray{"attributes":{}}
  h/.zattrs = "{\"a\":1.5}"
  i/.zarray = $zarray
  i/.zattrs = ff
  j/.zarray = $zarray
  j/.zattrs =
  k/.zarray = $zarray
  k/.zattrs = "{}{}"

# There is no .zattrs: the attributes are those in .zarray, if there are any.
> {"op":"reopen","path":"/a"}
> {"op":"reopen","path":"/b"}
< {"done":true}
> {"op":"reopen","path":"/c"}
< {"applied":0,"refused":"Document"}
> {"op":"reopen","path":"/d"}
< {"done":true}
> {"op":"read_chunk","path":"/a","chunk":[0,0]}
> {"op":"read_chunk","path":"/b","chunk":[0,0]}
> {"op":"read_chunk","path":"/d","chunk":[0,0]}
< {"cells":[1,2,3,4]}
# What .zattrs holds is no object, has a number that isn't whole, or can't be read.
> {"op":"reopen","path":"/e"}
> {"op":"reopen","path":"/f"}
> {"op":"reopen","path":"/g"}
> {"op":"reopen","path":"/h"}
> {"op":"reopen","path":"/i"}
> {"op":"reopen","path":"/j"}
> {"op":"reopen","path":"/k"}
< {"applied":0,"refused":"Document"}
> {"op":"read_chunk","path":"/e","chunk":[0,0]}
< {"applied":0,"refused":"NoArray"}

after: as before
