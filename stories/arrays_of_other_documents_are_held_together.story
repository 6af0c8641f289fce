Arrays with other shapes, keys and fill values are held in one session.

> {"op":"create","path":"/a","document":$zeros}
> {"op":"create","path":"/b/c","document":$zeros{"shape":[3],"chunk_grid":{"name":"regular","configuration":{"chunk_shape":[2]}},"chunk_key_encoding":{"name":"default","configuration":{"separator":"."}},"fill_value":7}}
> {"op":"write_box","path":"/b/c","box":[[1,3]],"cells":[1,2]}
< {"done":true}
> {"op":"read_box","path":"/b/c","box":[[0,4]]}
< {"cells":[7,1,2,7]}
> {"op":"read_box","path":"/a","box":[[1,3],[1,3]]}
< {"cells":[0,0,0,0]}
> {"op":"read_box","path":"/a","box":[[0,1]]}
< {"applied":0,"refused":"Region"}
> {"op":"read_box","path":"/b","box":[[0,1]]}
< {"applied":0,"refused":"NoArray"}

after:
  a/zarr.json = $stored
  b/c/c.0 = 07 01
  b/c/c.1 = 02 07
  b/c/zarr.json = $stored{"shape":[3],"chunk_grid":{"name":"regular","configuration":{"chunk_shape":[2]}},"chunk_key_encoding":{"name":"default","configuration":{"separator":"."}},"fill_value":7}
