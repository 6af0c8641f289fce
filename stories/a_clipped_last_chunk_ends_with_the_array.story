In a regular_bounded grid the last chunk ends with the array, and a value as long as a whole chunk is damage there.

> {"op":"create","path":"/a","document":$zeros{"shape":[3],"chunk_grid":{"name":"regular_bounded","configuration":{"chunk_shape":[2]}},"fill_value":200}}
> {"op":"write_box","path":"/a","box":[[0,3]],"cells":[1,2,3]}
< {"done":true}
> {"op":"read_box","path":"/a","box":[[1,3]]}
< {"cells":[2,3]}

after:
  a/c/0 = 01 02
  a/c/1 = 03
  a/zarr.json = $stored{"shape":[3],"chunk_grid":{"name":"regular_bounded","configuration":{"chunk_shape":[2]}},"fill_value":200}

before:
  a/c/1 = 03 04

> {"op":"reopen","path":"/a"}
< {"done":true}
> {"op":"read_box","path":"/a","box":[[1,3]]}
< {"applied":0,"refused":"Damage"}
> {"op":"erase_chunks","path":"/a","box":[[1,2]]}
< {"done":true}
> {"op":"read_box","path":"/a","box":[[0,3]]}
< {"cells":[1,2,200]}

after:
  a/c/0 = 01 02
  a/zarr.json = $stored{"shape":[3],"chunk_grid":{"name":"regular_bounded","configuration":{"chunk_shape":[2]}},"fill_value":200}
