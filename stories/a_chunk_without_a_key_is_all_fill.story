A chunk is read whole, with fill where nothing was written, and has no key once it is all fill.

> {"op":"create","path":"/a","document":$zeros{"fill_value":9}}
> {"op":"write_box","path":"/a","box":[[1,2],[2,3]],"cells":[5]}
< {"done":true}
> {"op":"read_chunk","path":"/a","chunk":[0,1]}
< {"cells":[9,9,5,9]}
> {"op":"read_chunk","path":"/a","chunk":[1,1]}
< {"cells":[9,9,9,9]}
> {"op":"write_chunk","path":"/a","chunk":[0,1],"cells":[9,9,9,9]}
< {"done":true}

after:
  a/zarr.json = $stored{"fill_value":9}
