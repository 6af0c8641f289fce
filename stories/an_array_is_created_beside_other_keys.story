An array is created where other keys are stored than its own document, and leaves them as they are.

before:
  a = "x"
  a/.zattrs = "x"
  a/b/zarr.json = "x"
  a/c/0/0 = 01 02 03 04
  ab/.zarray = "x"
  zarr.json = "x"

> {"op":"create","path":"/a","document":$zeros}
< {"done":true}
> {"op":"read_box","path":"/a","box":[[0,2],[1,3]]}
< {"cells":[2,0,4,0]}

after:
  a = "x"
  a/.zattrs = "x"
  a/b/zarr.json = "x"
  a/c/0/0 = 01 02 03 04
  a/zarr.json = $stored
  ab/.zarray = "x"
  zarr.json = "x"
