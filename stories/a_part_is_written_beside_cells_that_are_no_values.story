With the option for partial encoding, a part of a chunk is written whatever its other stored cells are: these stay. Only a value of another length is damage. Without the option a stored cell that is no value is damage.

before:
  a/c/0 = 00 01 02 00
  b/c/0 = 00 f0 07 08
  i/c/0 = 02 02 02 02
  l/c/0 = 00 01 02
  s/c/0/0 = 02 01
  t/c/0/0 = 01 00 02 01
  u/c/0/0 = 01 00 02

> {"op":"create","path":"/a","document":$zeros{"shape":[4],"data_type":"bool","chunk_grid":{"name":"regular","configuration":{"chunk_shape":[4]}},"fill_value":false}}
> {"op":"create","path":"/b","document":$zeros{"shape":[4],"data_type":"int4","chunk_grid":{"name":"regular","configuration":{"chunk_shape":[4]}}}}
> {"op":"create","path":"/i","document":$zeros{"shape":[4],"data_type":"bool","chunk_grid":{"name":"regular","configuration":{"chunk_shape":[4]}},"fill_value":false}}
> {"op":"create","path":"/l","document":$zeros{"shape":[4],"data_type":"bool","chunk_grid":{"name":"regular","configuration":{"chunk_shape":[4]}},"fill_value":false}}
> {"op":"create","path":"/s","document":$zeros{"shape":[1,2],"data_type":"bool","chunk_grid":{"name":"regular","configuration":{"chunk_shape":[1,2]}},"fill_value":false,"codecs":["squeeze","bytes"]}}
> {"op":"create","path":"/t","document":$zeros{"shape":[2,2],"data_type":"bool","fill_value":false,"codecs":[{"name":"transpose","configuration":{"order":[1,0]}},"bytes"]}}
> {"op":"create","path":"/u","document":$zeros{"shape":[2,2],"data_type":"bool","fill_value":false,"codecs":[{"name":"transpose","configuration":{"order":[1,0]}},"bytes"]}}
< {"done":true}

# Without the option.
> {"op":"write_box","path":"/a","box":[[0,2]],"cells":[true,false]}
> {"op":"write_box","path":"/b","box":[[0,1]],"cells":[3]}
> {"op":"write_box","path":"/t","box":[[1,2],[0,1]],"cells":[true]}
> {"op":"write_box","path":"/l","box":[[0,1]],"cells":[true]}
# A value of another length.
> {"op":"write_box","path":"/l","box":[[0,1]],"cells":[true],"options":{"partial":true}}
> {"op":"write_box","path":"/u","box":[[1,2],[0,1]],"cells":[true],"options":{"partial":true}}
< {"applied":0,"refused":"Damage"}

> {"op":"write_box","path":"/a","box":[[0,2]],"cells":[true,false],"options":{"partial":true}}
> {"op":"write_box","path":"/b","box":[[0,1]],"cells":[3],"options":{"partial":true}}
> {"op":"write_box","path":"/s","box":[[0,1],[1,2]],"cells":[false],"options":{"partial":true}}
> {"op":"write_box","path":"/t","box":[[1,2],[0,1]],"cells":[true],"options":{"partial":true}}
# All that was no value is written over, by the fill value.
> {"op":"write_box","path":"/i","box":[[0,3]],"cells":[false,false,false],"options":{"partial":true}}
> {"op":"write_box","path":"/i","box":[[3,4]],"cells":[false],"options":{"partial":true}}
< {"done":true}

# The cells that are values are read.
> {"op":"read_box","path":"/a","box":[[0,2]]}
< {"cells":[true,false]}
> {"op":"read_box","path":"/t","box":[[1,2],[0,2]]}
< {"cells":[true,true]}
> {"op":"read_box","path":"/i","box":[[0,4]]}
< {"cells":[false,false,false,false]}
> {"op":"read_box","path":"/a","box":[[2,3]]}
> {"op":"read_box","path":"/t","box":[[0,1],[1,2]]}
< {"applied":0,"refused":"Damage"}

after:
  a/c/0 = 01 00 02 00
  a/zarr.json = $stored{"shape":[4],"data_type":"bool","chunk_grid":{"name":"regular","configuration":{"chunk_shape":[4]}},"fill_value":false}
  b/c/0 = 03 f0 07 08
  b/zarr.json = $stored{"shape":[4],"data_type":"int4","chunk_grid":{"name":"regular","configuration":{"chunk_shape":[4]}}}
  i/c/0 = 00 00 00 00
  i/zarr.json = $stored{"shape":[4],"data_type":"bool","chunk_grid":{"name":"regular","configuration":{"chunk_shape":[4]}},"fill_value":false}
  l/c/0 = 00 01 02
  l/zarr.json = $stored{"shape":[4],"data_type":"bool","chunk_grid":{"name":"regular","configuration":{"chunk_shape":[4]}},"fill_value":false}
  s/c/0/0 = 02 00
  s/zarr.json = $stored{"shape":[1,2],"data_type":"bool","chunk_grid":{"name":"regular","configuration":{"chunk_shape":[1,2]}},"fill_value":false,"codecs":["squeeze","bytes"]}
  t/c/0/0 = 01 01 02 01
  t/zarr.json = $stored{"shape":[2,2],"data_type":"bool","fill_value":false,"codecs":[{"name":"transpose","configuration":{"order":[1,0]}},"bytes"]}
  u/c/0/0 = 01 00 02
  u/zarr.json = $stored{"shape":[2,2],"data_type":"bool","fill_value":false,"codecs":[{"name":"transpose","configuration":{"order":[1,0]}},"bytes"]}
