An array of size 0 has no cell.

> {"op":"create","path":"/a","document":$zeros{"shape":[0],"chunk_grid":{"name":"regular","configuration":{"chunk_shape":[2]}}}}
< {"done":true}
> {"op":"read_box","path":"/a","box":[[0,0]]}
< {"cells":[]}
> {"op":"read_box","path":"/a","box":[[0,1]]}
< {"applied":0,"refused":"Region"}

after:
  a/zarr.json = $stored{"shape":[0],"chunk_grid":{"name":"regular","configuration":{"chunk_shape":[2]}}}
