An array is not reopened where what is stored for it is no document.

before:
  a/c/0/0 = 01 02 03 04
  a/zarr.json = "null"
  b/zarr.json = "{}"
  c/zarr.json = "[]"
  d/zarr.json = "\"zarr.json\""
  e/zarr.json = " "
  f/zarr.json = ff
  g/zarr.json = "{\"zarr_format\":2}"
  h/zarr.json = "{}{}"
  i/zarr.json =

> {"op":"reopen","path":"/a"}
> {"op":"reopen","path":"/b"}
> {"op":"reopen","path":"/c"}
> {"op":"reopen","path":"/d"}
> {"op":"reopen","path":"/e"}
> {"op":"reopen","path":"/f"}
> {"op":"reopen","path":"/g"}
> {"op":"reopen","path":"/h"}
> {"op":"reopen","path":"/i"}
< {"applied":0,"refused":"Document"}
> {"op":"read_box","path":"/a","box":[[0,0],[0,0]]}
< {"applied":0,"refused":"NoArray"}

after: as before
