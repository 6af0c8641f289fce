A write to a chunk that doesn't fit its codecs asks the store for nothing; a read finds that a chunk doesn't fit once it has read it.

# A create reads twice.
before:
  a/c/0 = 01 00 02 00
  refuse read 3

> {"op":"create","path":"/a","document":$zeros{"shape":[4],"data_type":"int16","chunk_grid":{"name":"regular","configuration":{"chunk_shape":[2]}}}}
< {"done":true}
> {"op":"write_box","path":"/a","box":[[1,2]],"cells":[1]}
< {"applied":0,"refused":"Fit"}
> {"op":"read_box","path":"/a","box":[[0,1]]}
< {"applied":0,"refused":"Store"}
> {"op":"read_box","path":"/a","box":[[0,1]]}
< {"applied":0,"refused":"Fit"}

after:
  a/c/0 = 01 00 02 00
  a/zarr.json = $stored{"shape":[4],"data_type":"int16","chunk_grid":{"name":"regular","configuration":{"chunk_shape":[2]}}}
