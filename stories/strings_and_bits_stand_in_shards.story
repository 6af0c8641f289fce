The subchunks of a shard are encoded by its own codecs: strings by `vlen`, bits by `packbits`.

> {"op":"create","path":"/s","document":$zeros{"shape":[4],"data_type":"string","chunk_grid":{"name":"regular","configuration":{"chunk_shape":[4]}},"fill_value":"","codecs":[{"name":"sharding_indexed","configuration":{"chunk_shape":[2],"codecs":[{"name":"vlen","configuration":{"index_codecs":[{"name":"bytes","configuration":{"endian":"little"}}],"data_codecs":["bytes"],"index_data_type":"uint32"}}],"index_codecs":[{"name":"bytes","configuration":{"endian":"little"}}]}}]},"order":"C"}
> {"op":"write_box","path":"/s","box":[[0,4]],"cells":["a","","",""]}
> {"op":"create","path":"/b","document":$zeros{"shape":[8],"data_type":"bool","chunk_grid":{"name":"regular","configuration":{"chunk_shape":[8]}},"codecs":[{"name":"sharding_indexed","configuration":{"chunk_shape":[4],"codecs":["packbits"],"index_codecs":[{"name":"bytes","configuration":{"endian":"little"}}]}}],"fill_value":false},"order":"C"}
> {"op":"write_box","path":"/b","box":[[0,8]],"cells":[true,false,true,true,false,true,false,false]}
< {"done":true}
> {"op":"read_box","path":"/s","box":[[0,3]]}
< {"cells":["a","",""]}
> {"op":"read_box","path":"/b","box":[[3,6]]}
< {"cells":[true,false,true]}

after:
  b/c/0 = 0d 02 0000000000000000 0100000000000000 0100000000000000 0100000000000000
  b/zarr.json = $stored{"shape":[8],"data_type":"bool","chunk_grid":{"name":"regular","configuration":{"chunk_shape":[8]}},"codecs":[{"name":"sharding_indexed","configuration":{"chunk_shape":[4],"codecs":["packbits"],"index_codecs":[{"name":"bytes","configuration":{"endian":"little"}}]}}],"fill_value":false}
  s/c/0 = 0c00000000000000 00000000 01000000 01000000 61 0000000000000000 1500000000000000 ffffffffffffffff ffffffffffffffff
  s/zarr.json = $stored{"shape":[4],"data_type":"string","chunk_grid":{"name":"regular","configuration":{"chunk_shape":[4]}},"fill_value":"","codecs":[{"name":"sharding_indexed","configuration":{"chunk_shape":[2],"codecs":[{"name":"vlen","configuration":{"index_codecs":[{"name":"bytes","configuration":{"endian":"little"}}],"data_codecs":["bytes"],"index_data_type":"uint32"}}],"index_codecs":[{"name":"bytes","configuration":{"endian":"little"}}]}}]}

# A longer string moves what stands behind it.
> {"op":"reopen","path":"/s","order":"C"}
> {"op":"write_box","path":"/s","box":[[1,4]],"cells":["bc","","é"]}
< {"done":true}
> {"op":"read_chunk","path":"/s","chunk":[0]}
< {"cells":["a","bc","","é"]}

after:
  b/c/0 = 0d 02 0000000000000000 0100000000000000 0100000000000000 0100000000000000
  b/zarr.json = $stored{"shape":[8],"data_type":"bool","chunk_grid":{"name":"regular","configuration":{"chunk_shape":[8]}},"codecs":[{"name":"sharding_indexed","configuration":{"chunk_shape":[4],"codecs":["packbits"],"index_codecs":[{"name":"bytes","configuration":{"endian":"little"}}]}}],"fill_value":false}
  s/c/0 = 0c00000000000000 00000000 01000000 03000000 616263 0c00000000000000 00000000 00000000 02000000 c3a9 0000000000000000 1700000000000000 1700000000000000 1600000000000000
  s/zarr.json = $stored{"shape":[4],"data_type":"string","chunk_grid":{"name":"regular","configuration":{"chunk_shape":[4]}},"fill_value":"","codecs":[{"name":"sharding_indexed","configuration":{"chunk_shape":[2],"codecs":[{"name":"vlen","configuration":{"index_codecs":[{"name":"bytes","configuration":{"endian":"little"}}],"data_codecs":["bytes"],"index_data_type":"uint32"}}],"index_codecs":[{"name":"bytes","configuration":{"endian":"little"}}]}}]}
