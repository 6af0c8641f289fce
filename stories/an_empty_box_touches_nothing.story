A box with no place is written and read, and no chunk is stored, whatever the options say.

> {"op":"create","path":"/a","document":$zeros}
> {"op":"write_box","path":"/a","box":[[2,2],[0,4]],"cells":[]}
< {"done":true}
> {"op":"read_box","path":"/a","box":[[2,2],[0,4]]}
< {"cells":[]}
> {"op":"write_box","path":"/a","box":[[2,2],[0,4]],"cells":[],"options":{"empty":true}}
< {"done":true}
# A box that ends before its start is empty too.
> {"op":"read_box","path":"/a","box":[[3,1],[0,4]]}
< {"cells":[]}

after:
  a/zarr.json = $stored
