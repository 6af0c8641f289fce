An array that is created where chunks are stored already has their cells.

before:
  a/c/0/1 = 01 02 03 04
  b/c/0/1 = 01 02 03 04 05 06

> {"op":"create","path":"/a","document":$zeros}
< {"done":true}
> {"op":"read_box","path":"/a","box":[[0,2],[0,4]]}
< {"cells":[0,0,1,2,0,0,3,4]}
> {"op":"create","path":"/b","document":$zeros{"shape":[4,6],"chunk_grid":{"name":"regular","configuration":{"chunk_shape":[2,3]}},"fill_value":200}}
< {"done":true}
> {"op":"read_box","path":"/b","box":[[0,3],[2,5]]}
< {"cells":[200,1,2,200,4,5,200,200,200]}

after:
  a/c/0/1 = 01 02 03 04
  a/zarr.json = $stored
  b/c/0/1 = 01 02 03 04 05 06
  b/zarr.json = $stored{"shape":[4,6],"chunk_grid":{"name":"regular","configuration":{"chunk_shape":[2,3]}},"fill_value":200}
