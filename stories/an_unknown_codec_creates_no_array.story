An array with a codec that isn't known, or with a field that its codec doesn't take, is not created, and its path stays free.

> {"op":"create","path":"/a","document":$zeros{"codecs":["bytes","unknown"]}}
> {"op":"create","path":"/a","document":$zeros{"codecs":["bytes",{"name":"x-reverse","configuration":{"a":1}}]}}
< {"applied":0,"refused":"Document"}
> {"op":"read_box","path":"/a","box":[[0,1],[0,1]]}
> {"op":"reopen","path":"/a"}
< {"applied":0,"refused":"NoArray"}
> {"op":"create","path":"/a","document":$zeros}
< {"done":true}

after:
  a/zarr.json = $stored
