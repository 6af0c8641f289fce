A string may hold any bytes. One that isn't UTF-8 is read, but has no form as JSON.

before:
  s/c/0 = 0c00000000000000 00000000 01000000 03000000 ff c3a9
  s/zarr.json = $stored{"shape":[2],"data_type":"string","chunk_grid":{"name":"regular","configuration":{"chunk_shape":[2]}},"fill_value":"","codecs":[{"name":"vlen","configuration":{"index_codecs":[{"name":"bytes","configuration":{"endian":"little"}}],"data_codecs":["bytes"],"index_data_type":"uint32"}}]}

> {"op":"reopen","path":"/s"}
< {"done":true}
> {"op":"read_box","path":"/s","box":[[0,2]]}
< {"fault":"text"}
> {"op":"read_box","path":"/s","box":[[1,2]]}
< {"cells":["é"]}
> {"op":"read_box","path":"/s","box":[[0,1]]}
< {"fault":"text"}
> {"op":"read_box","path":"/s","box":[[0,0]]}
< {"cells":[]}

after: as before
