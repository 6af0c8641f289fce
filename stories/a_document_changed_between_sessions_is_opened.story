Where the stored document was changed since the last session, the array is opened as the document says now.

> {"op":"create","path":"/a","document":$zeros}
> {"op":"write_box","path":"/a","box":[[1,2],[1,2]],"cells":[5]}
< {"done":true}

after:
  a/c/0/0 = 00 00 00 05
  a/zarr.json = $stored

# Taller.
before:
  a/zarr.json = $zeros{"shape":[6,4]}

> {"op":"reopen","path":"/a"}
< {"done":true}
> {"op":"read_box","path":"/a","box":[[0,6],[0,2]]}
< {"cells":[0,0,0,5,0,0,0,0,0,0,0,0]}
> {"op":"write_chunk","path":"/a","chunk":[2,1],"cells":[1,2,3,4]}
< {"done":true}
> {"op":"read_chunk","path":"/a","chunk":[3,0]}
< {"applied":0,"refused":"Region"}

after:
  a/c/0/0 = 00 00 00 05
  a/c/2/1 = 01 02 03 04
  a/zarr.json = $zeros{"shape":[6,4]}

# As tall as at first, and with another fill value.
before:
  a/zarr.json = $zeros{"fill_value":9}

> {"op":"reopen","path":"/a"}
< {"done":true}
> {"op":"read_box","path":"/a","box":[[0,2],[0,4]]}
< {"cells":[0,0,9,9,0,5,9,9]}
> {"op":"read_chunk","path":"/a","chunk":[2,1]}
< {"applied":0,"refused":"Region"}

after: as before
