A write into a part of a chunk of strings keeps the others. Strings of no bytes are stored where they aren't the fill value.

> {"op":"create","path":"/s","document":$zeros{"shape":[4],"data_type":"string","chunk_grid":{"name":"regular","configuration":{"chunk_shape":[2]}},"fill_value":"?","codecs":[{"name":"vlen","configuration":{"index_codecs":[{"name":"bytes","configuration":{"endian":"little"}}],"data_codecs":["bytes"],"index_data_type":"uint32"}}]}}
> {"op":"write_box","path":"/s","box":[[1,4]],"cells":["xyz","",""]}
< {"done":true}
> {"op":"read_box","path":"/s","box":[[0,4]]}
< {"cells":["?","xyz","",""]}
> {"op":"write_box","path":"/s","box":[[1,2]],"cells":[1]}
> {"op":"write_box","path":"/s","box":[[1,2]],"cells":[null]}
< {"applied":0,"refused":"Data"}

after:
  s/c/0 = 0c00000000000000 00000000 01000000 04000000 3f78797a
  s/c/1 = 0c00000000000000 00000000 00000000 00000000
  s/zarr.json = $stored{"shape":[4],"data_type":"string","chunk_grid":{"name":"regular","configuration":{"chunk_shape":[2]}},"fill_value":"?","codecs":[{"name":"vlen","configuration":{"index_codecs":[{"name":"bytes","configuration":{"endian":"little"}}],"data_codecs":["bytes"],"index_data_type":"uint32"}}]}

> {"op":"reopen","path":"/s"}
> {"op":"write_box","path":"/s","box":[[1,2]],"cells":["?"]}
< {"done":true}
> {"op":"read_box","path":"/s","box":[[0,3]]}
< {"cells":["?","?",""]}

after:
  s/c/1 = 0c00000000000000 00000000 00000000 00000000
  s/zarr.json = $stored{"shape":[4],"data_type":"string","chunk_grid":{"name":"regular","configuration":{"chunk_shape":[2]}},"fill_value":"?","codecs":[{"name":"vlen","configuration":{"index_codecs":[{"name":"bytes","configuration":{"endian":"little"}}],"data_codecs":["bytes"],"index_data_type":"uint32"}}]}
