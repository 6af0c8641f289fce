A chunk of strings holds how long its index is, where each string ends, and then the strings.

> {"op":"create","path":"/s","document":$zeros{"shape":[3],"data_type":"string","chunk_grid":{"name":"regular","configuration":{"chunk_shape":[3]}},"fill_value":"","codecs":[{"name":"vlen","configuration":{"index_codecs":[{"name":"bytes","configuration":{"endian":"little"}}],"data_codecs":["bytes"],"index_data_type":"uint32","index_location":"start"}}]}}
> {"op":"write_box","path":"/s","box":[[0,3]],"cells":["a","","bc"]}
< {"done":true}
> {"op":"read_box","path":"/s","box":[[0,3]]}
< {"cells":["a","","bc"]}
> {"op":"read_box","path":"/s","box":[[2,3]]}
< {"cells":["bc"]}

after:
  s/c/0 = 1000000000000000 00000000 01000000 01000000 03000000 616263
  s/zarr.json = $stored{"shape":[3],"data_type":"string","chunk_grid":{"name":"regular","configuration":{"chunk_shape":[3]}},"fill_value":"","codecs":[{"name":"vlen","configuration":{"index_codecs":[{"name":"bytes","configuration":{"endian":"little"}}],"data_codecs":["bytes"],"index_data_type":"uint32","index_location":"start"}}]}
