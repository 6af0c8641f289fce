A chunk of strings is damaged where an offset is less than the one before it, or where the last one isn't the end of the strings, also where no value is as long.

before:
  s/c/0 = 0c00000000000000 00000000 02000000 01000000 61
  s/c/1 = 0c00000000000000 00000000 01000000 01000000 6162
  s/zarr.json = $stored{"shape":[4],"data_type":"string","chunk_grid":{"name":"regular","configuration":{"chunk_shape":[2]}},"fill_value":"","codecs":[{"name":"vlen","configuration":{"index_codecs":[{"name":"bytes","configuration":{"endian":"little"}}],"data_codecs":["bytes"],"index_data_type":"uint32"}}]}
  w/c/0 = 1000000000000000 0000000000000000 0000000000000080 61
  w/c/1 = 1000000000000000 0000000000000000 ffffffffffffffff 61
  w/zarr.json = $stored{"shape":[2],"data_type":"string","chunk_grid":{"name":"regular","configuration":{"chunk_shape":[1]}},"fill_value":"","codecs":[{"name":"vlen","configuration":{"index_codecs":[{"name":"bytes","configuration":{"endian":"little"}}],"data_codecs":["bytes"],"index_data_type":"uint64"}}]}

> {"op":"reopen","path":"/s"}
> {"op":"reopen","path":"/w"}
< {"done":true}
> {"op":"read_chunk","path":"/s","chunk":[0]}
> {"op":"read_chunk","path":"/s","chunk":[1]}
> {"op":"read_box","path":"/s","box":[[1,2]]}
> {"op":"read_chunk","path":"/w","chunk":[0]}
> {"op":"read_chunk","path":"/w","chunk":[1]}
< {"applied":0,"refused":"Damage"}

after: as before
