With the option for partial encoding, parts are appended to a shard behind a transpose or a squeeze, whatever codecs its subchunks have. Behind a reshape, or before codecs on bytes, the shard is encoded whole.

# Shards behind a transpose, a squeeze and a reshape; before x-reverse, and with it in the subchunks; of strings; and of bits.
> {"op":"create","path":"/t","document":$shard{"shape":[2,6],"chunk_grid":{"name":"regular","configuration":{"chunk_shape":[2,6]}},"codecs":[{"name":"transpose","configuration":{"order":[1,0]}},{"name":"sharding_indexed","configuration":{"chunk_shape":[3,2],"codecs":["bytes"],"index_codecs":[{"name":"bytes","configuration":{"endian":"little"}}]}}]},"order":"C"}
> {"op":"create","path":"/q","document":$shard{"shape":[1,4],"chunk_grid":{"name":"regular","configuration":{"chunk_shape":[1,4]}},"codecs":["squeeze",{"name":"sharding_indexed","configuration":{"chunk_shape":[2],"codecs":["bytes"],"index_codecs":[{"name":"bytes","configuration":{"endian":"little"}}]}}]},"order":"C"}
> {"op":"create","path":"/r","document":$shard{"shape":[2,3],"chunk_grid":{"name":"regular","configuration":{"chunk_shape":[2,3]}},"codecs":[{"name":"reshape","configuration":{"shape":[[0,1]]}},{"name":"sharding_indexed","configuration":{"chunk_shape":[2],"codecs":["bytes"],"index_codecs":[{"name":"bytes","configuration":{"endian":"little"}}]}}]},"order":"C"}
> {"op":"create","path":"/x","document":$shard{"codecs":[{"name":"sharding_indexed","configuration":{"chunk_shape":[2],"codecs":["bytes"],"index_codecs":[{"name":"bytes","configuration":{"endian":"little"}}]}},"x-reverse"]},"order":"C"}
> {"op":"create","path":"/y","document":$shard{"codecs":[{"name":"sharding_indexed","configuration":{"chunk_shape":[2],"codecs":["bytes","x-reverse"],"index_codecs":[{"name":"bytes","configuration":{"endian":"little"}}]}}]},"order":"C"}
> {"op":"create","path":"/s","document":$shard{"data_type":"string","fill_value":"","codecs":[{"name":"sharding_indexed","configuration":{"chunk_shape":[2],"codecs":[{"name":"vlen","configuration":{"index_codecs":[{"name":"bytes","configuration":{"endian":"little"}}],"data_codecs":["bytes"],"index_data_type":"uint32"}}],"index_codecs":[{"name":"bytes","configuration":{"endian":"little"}}]}}]},"order":"C"}
> {"op":"create","path":"/b","document":$shard{"shape":[8],"data_type":"bool","fill_value":false,"chunk_grid":{"name":"regular","configuration":{"chunk_shape":[8]}},"codecs":[{"name":"sharding_indexed","configuration":{"chunk_shape":[4],"codecs":["packbits"],"index_codecs":[{"name":"bytes","configuration":{"endian":"little"}}]}}]},"order":"C"}
> {"op":"write_box","path":"/t","box":[[0,2],[0,6]],"cells":[1,2,3,4,5,6,7,8,9,10,11,12]}
> {"op":"write_box","path":"/q","box":[[0,1],[0,4]],"cells":[1,2,3,4]}
> {"op":"write_box","path":"/r","box":[[0,2],[0,3]],"cells":[1,2,3,4,5,6]}
> {"op":"write_box","path":"/x","box":[[0,4]],"cells":[1,2,3,4]}
> {"op":"write_box","path":"/y","box":[[0,4]],"cells":[1,2,3,4]}
> {"op":"write_box","path":"/s","box":[[0,4]],"cells":["a","","","é"]}
> {"op":"write_box","path":"/b","box":[[0,8]],"cells":[true,false,true,true,false,true,false,false]}
# A part of the first subchunk of each, but of the second one of /q and /b.
> {"op":"write_box","path":"/t","box":[[0,1],[0,1]],"cells":[20],"options":{"partial":true}}
> {"op":"write_box","path":"/q","box":[[0,1],[2,3]],"cells":[20],"options":{"partial":true}}
> {"op":"write_box","path":"/r","box":[[0,1],[0,1]],"cells":[20],"options":{"partial":true}}
> {"op":"write_box","path":"/x","box":[[0,1]],"cells":[20],"options":{"partial":true}}
> {"op":"write_box","path":"/y","box":[[0,1]],"cells":[20],"options":{"partial":true}}
> {"op":"write_box","path":"/s","box":[[1,2]],"cells":["bc"],"options":{"partial":true}}
> {"op":"write_box","path":"/b","box":[[6,7]],"cells":[true],"options":{"partial":true}}
< {"done":true}

after:
  t/c/0/0 = 01 07 02 08 03 09 04 0a 05 0b 06 0c 14 07 02 08 03 09 0c00000000000000 0600000000000000 0600000000000000 0600000000000000
  q/c/0/0 = 0102 0304 1404 0000000000000000 0200000000000000 0400000000000000 0200000000000000
  r/c/0/0 = 1402 0304 0506 0000000000000000 0200000000000000 0200000000000000 0200000000000000 0400000000000000 0200000000000000
  x/c/0 = 0000000000000002 0000000000000002 0000000000000002 0000000000000000 04 03 02 14
  y/c/0 = 0201 0403 0214 0400000000000000 0200000000000000 0200000000000000 0200000000000000
  s/c/0 = 0c00000000000000 00000000 01000000 01000000 61 0c00000000000000 00000000 00000000 02000000 c3a9 0c00000000000000 00000000 01000000 03000000 616263 2b00000000000000 1700000000000000 1500000000000000 1600000000000000
  b/c/0 = 0d 02 06 0000000000000000 0100000000000000 0200000000000000 0100000000000000
  t/zarr.json = $stored_shard{"shape":[2,6],"chunk_grid":{"name":"regular","configuration":{"chunk_shape":[2,6]}},"codecs":[{"name":"transpose","configuration":{"order":[1,0]}},{"name":"sharding_indexed","configuration":{"chunk_shape":[3,2],"codecs":["bytes"],"index_codecs":[{"name":"bytes","configuration":{"endian":"little"}}]}}]}
  q/zarr.json = $stored_shard{"shape":[1,4],"chunk_grid":{"name":"regular","configuration":{"chunk_shape":[1,4]}},"codecs":["squeeze",{"name":"sharding_indexed","configuration":{"chunk_shape":[2],"codecs":["bytes"],"index_codecs":[{"name":"bytes","configuration":{"endian":"little"}}]}}]}
  r/zarr.json = $stored_shard{"shape":[2,3],"chunk_grid":{"name":"regular","configuration":{"chunk_shape":[2,3]}},"codecs":[{"name":"reshape","configuration":{"shape":[[0,1]]}},{"name":"sharding_indexed","configuration":{"chunk_shape":[2],"codecs":["bytes"],"index_codecs":[{"name":"bytes","configuration":{"endian":"little"}}]}}]}
  x/zarr.json = $stored_shard{"codecs":[{"name":"sharding_indexed","configuration":{"chunk_shape":[2],"codecs":["bytes"],"index_codecs":[{"name":"bytes","configuration":{"endian":"little"}}]}},"x-reverse"]}
  y/zarr.json = $stored_shard{"codecs":[{"name":"sharding_indexed","configuration":{"chunk_shape":[2],"codecs":["bytes","x-reverse"],"index_codecs":[{"name":"bytes","configuration":{"endian":"little"}}]}}]}
  s/zarr.json = $stored_shard{"data_type":"string","fill_value":"","codecs":[{"name":"sharding_indexed","configuration":{"chunk_shape":[2],"codecs":[{"name":"vlen","configuration":{"index_codecs":[{"name":"bytes","configuration":{"endian":"little"}}],"data_codecs":["bytes"],"index_data_type":"uint32"}}],"index_codecs":[{"name":"bytes","configuration":{"endian":"little"}}]}}]}
  b/zarr.json = $stored_shard{"shape":[8],"data_type":"bool","fill_value":false,"chunk_grid":{"name":"regular","configuration":{"chunk_shape":[8]}},"codecs":[{"name":"sharding_indexed","configuration":{"chunk_shape":[4],"codecs":["packbits"],"index_codecs":[{"name":"bytes","configuration":{"endian":"little"}}]}}]}

# A compaction gains where something was appended.
> {"op":"reopen","path":"/t","order":"C"}
> {"op":"reopen","path":"/q","order":"C"}
> {"op":"reopen","path":"/r","order":"C"}
> {"op":"reopen","path":"/x","order":"C"}
> {"op":"reopen","path":"/y","order":"C"}
> {"op":"reopen","path":"/s","order":"C"}
> {"op":"reopen","path":"/b","order":"C"}
< {"done":true}
> {"op":"compact","path":"/t","chunk":[0,0]}
> {"op":"compact","path":"/q","chunk":[0,0]}
> {"op":"compact","path":"/y","chunk":[0]}
> {"op":"compact","path":"/s","chunk":[0]}
> {"op":"compact","path":"/b","chunk":[0]}
< {"compacted":true}
> {"op":"compact","path":"/r","chunk":[0,0]}
> {"op":"compact","path":"/x","chunk":[0]}
< {"compacted":false}
> {"op":"read_chunk","path":"/t","chunk":[0,0]}
< {"cells":[20,2,3,4,5,6,7,8,9,10,11,12]}
> {"op":"read_chunk","path":"/s","chunk":[0]}
< {"cells":["a","bc","","é"]}
> {"op":"read_chunk","path":"/b","chunk":[0]}
< {"cells":[true,false,true,true,false,true,true,false]}

after:
  t/c/0/0 = 14 07 02 08 03 09 04 0a 05 0b 06 0c 0000000000000000 0600000000000000 0600000000000000 0600000000000000
  q/c/0/0 = 0102 1404 0000000000000000 0200000000000000 0200000000000000 0200000000000000
  r/c/0/0 = 1402 0304 0506 0000000000000000 0200000000000000 0200000000000000 0200000000000000 0400000000000000 0200000000000000
  x/c/0 = 0000000000000002 0000000000000002 0000000000000002 0000000000000000 04 03 02 14
  y/c/0 = 0214 0403 0000000000000000 0200000000000000 0200000000000000 0200000000000000
  s/c/0 = 0c00000000000000 00000000 01000000 03000000 616263 0c00000000000000 00000000 00000000 02000000 c3a9 0000000000000000 1700000000000000 1700000000000000 1600000000000000
  b/c/0 = 0d 06 0000000000000000 0100000000000000 0100000000000000 0100000000000000
  t/zarr.json = $stored_shard{"shape":[2,6],"chunk_grid":{"name":"regular","configuration":{"chunk_shape":[2,6]}},"codecs":[{"name":"transpose","configuration":{"order":[1,0]}},{"name":"sharding_indexed","configuration":{"chunk_shape":[3,2],"codecs":["bytes"],"index_codecs":[{"name":"bytes","configuration":{"endian":"little"}}]}}]}
  q/zarr.json = $stored_shard{"shape":[1,4],"chunk_grid":{"name":"regular","configuration":{"chunk_shape":[1,4]}},"codecs":["squeeze",{"name":"sharding_indexed","configuration":{"chunk_shape":[2],"codecs":["bytes"],"index_codecs":[{"name":"bytes","configuration":{"endian":"little"}}]}}]}
  r/zarr.json = $stored_shard{"shape":[2,3],"chunk_grid":{"name":"regular","configuration":{"chunk_shape":[2,3]}},"codecs":[{"name":"reshape","configuration":{"shape":[[0,1]]}},{"name":"sharding_indexed","configuration":{"chunk_shape":[2],"codecs":["bytes"],"index_codecs":[{"name":"bytes","configuration":{"endian":"little"}}]}}]}
  x/zarr.json = $stored_shard{"codecs":[{"name":"sharding_indexed","configuration":{"chunk_shape":[2],"codecs":["bytes"],"index_codecs":[{"name":"bytes","configuration":{"endian":"little"}}]}},"x-reverse"]}
  y/zarr.json = $stored_shard{"codecs":[{"name":"sharding_indexed","configuration":{"chunk_shape":[2],"codecs":["bytes","x-reverse"],"index_codecs":[{"name":"bytes","configuration":{"endian":"little"}}]}}]}
  s/zarr.json = $stored_shard{"data_type":"string","fill_value":"","codecs":[{"name":"sharding_indexed","configuration":{"chunk_shape":[2],"codecs":[{"name":"vlen","configuration":{"index_codecs":[{"name":"bytes","configuration":{"endian":"little"}}],"data_codecs":["bytes"],"index_data_type":"uint32"}}],"index_codecs":[{"name":"bytes","configuration":{"endian":"little"}}]}}]}
  b/zarr.json = $stored_shard{"shape":[8],"data_type":"bool","fill_value":false,"chunk_grid":{"name":"regular","configuration":{"chunk_shape":[8]}},"codecs":[{"name":"sharding_indexed","configuration":{"chunk_shape":[4],"codecs":["packbits"],"index_codecs":[{"name":"bytes","configuration":{"endian":"little"}}]}}]}
