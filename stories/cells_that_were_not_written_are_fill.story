A cell that was never written is the fill value, in a stored chunk as in one without a key.

> {"op":"create","path":"/a","document":$zeros{"fill_value":9}}
< {"done":true}
> {"op":"read_box","path":"/a","box":[[0,2],[0,2]]}
< {"cells":[9,9,9,9]}
> {"op":"write_box","path":"/a","box":[[1,2],[0,1]],"cells":[1]}
< {"done":true}
> {"op":"read_box","path":"/a","box":[[0,2],[0,2]]}
< {"cells":[9,9,1,9]}
> {"op":"write_box","path":"/a","box":[[2,4],[2,4]],"cells":[9,9,9,9]}
< {"done":true}
# The greatest fill value.
> {"op":"create","path":"/b","document":$zeros{"fill_value":255}}
< {"done":true}
> {"op":"read_box","path":"/b","box":[[0,1],[0,2]]}
< {"cells":[255,255]}

after:
  a/c/0/0 = 09 09 01 09
  a/zarr.json = $stored{"fill_value":9}
  b/zarr.json = $stored{"fill_value":255}
