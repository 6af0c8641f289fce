A chunk that a write makes all fill is taken out of the store.

> {"op":"create","path":"/a","document":$zeros}
> {"op":"write_box","path":"/a","box":[[1,3],[1,3]],"cells":[1,2,3,4]}
> {"op":"write_box","path":"/a","box":[[1,3],[1,3]],"cells":[0,0,0,0]}
< {"done":true}

after:
  a/zarr.json = $stored
