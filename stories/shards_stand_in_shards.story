The subchunks of a shard may be shards: each has an index of its own, and offsets from its own first byte.

> {"op":"create","path":"/s","document":$zeros{"shape":[4,4],"chunk_grid":{"name":"regular","configuration":{"chunk_shape":[4,4]}},"codecs":[{"name":"sharding_indexed","configuration":{"chunk_shape":[2,2],"codecs":[{"name":"sharding_indexed","configuration":{"chunk_shape":[1,2],"codecs":["bytes"],"index_codecs":[{"name":"bytes","configuration":{"endian":"little"}}]}}],"index_codecs":[{"name":"bytes","configuration":{"endian":"little"}}]}}]},"order":"C"}
> {"op":"create","path":"/t","document":$zeros{"shape":[4,4],"chunk_grid":{"name":"regular","configuration":{"chunk_shape":[4,4]}},"codecs":[{"name":"sharding_indexed","configuration":{"chunk_shape":[2,2],"codecs":[{"name":"sharding_indexed","configuration":{"chunk_shape":[1,2],"codecs":["bytes"],"index_codecs":[{"name":"bytes","configuration":{"endian":"little"}}]}}],"index_codecs":[{"name":"bytes","configuration":{"endian":"little"}}]}}]},"order":"C"}
> {"op":"write_box","path":"/s","box":[[0,1],[0,2]],"cells":[1,2]}
> {"op":"write_box","path":"/t","box":[[0,4],[0,4]],"cells":[1,2,3,4,5,6,7,8,9,10,11,12,13,14,15,16]}
< {"done":true}
> {"op":"read_box","path":"/s","box":[[0,2],[1,3]]}
< {"cells":[2,0,0,0]}
> {"op":"read_box","path":"/t","box":[[1,3],[1,3]]}
< {"cells":[6,7,10,11]}

after:
  s/c/0/0 = 0102 0000000000000000 0200000000000000 ffffffffffffffff ffffffffffffffff 0000000000000000 2200000000000000 ffffffffffffffff ffffffffffffffff ffffffffffffffff ffffffffffffffff ffffffffffffffff ffffffffffffffff
  s/zarr.json = $stored{"shape":[4,4],"chunk_grid":{"name":"regular","configuration":{"chunk_shape":[4,4]}},"codecs":[{"name":"sharding_indexed","configuration":{"chunk_shape":[2,2],"codecs":[{"name":"sharding_indexed","configuration":{"chunk_shape":[1,2],"codecs":["bytes"],"index_codecs":[{"name":"bytes","configuration":{"endian":"little"}}]}}],"index_codecs":[{"name":"bytes","configuration":{"endian":"little"}}]}}]}
  t/c/0/0 = 0102 0506 0000000000000000 0200000000000000 0200000000000000 0200000000000000 0304 0708 0000000000000000 0200000000000000 0200000000000000 0200000000000000 090a 0d0e 0000000000000000 0200000000000000 0200000000000000 0200000000000000 0b0c 0f10 0000000000000000 0200000000000000 0200000000000000 0200000000000000 0000000000000000 2400000000000000 2400000000000000 2400000000000000 4800000000000000 2400000000000000 6c00000000000000 2400000000000000
  t/zarr.json = $stored{"shape":[4,4],"chunk_grid":{"name":"regular","configuration":{"chunk_shape":[4,4]}},"codecs":[{"name":"sharding_indexed","configuration":{"chunk_shape":[2,2],"codecs":[{"name":"sharding_indexed","configuration":{"chunk_shape":[1,2],"codecs":["bytes"],"index_codecs":[{"name":"bytes","configuration":{"endian":"little"}}]}}],"index_codecs":[{"name":"bytes","configuration":{"endian":"little"}}]}}]}

# A part of an inner shard is written, and one that becomes fill leaves no bytes at either depth.
> {"op":"reopen","path":"/s","order":"C"}
> {"op":"reopen","path":"/t","order":"C"}
> {"op":"write_box","path":"/s","box":[[1,2],[1,3]],"cells":[3,4]}
> {"op":"write_box","path":"/t","box":[[0,4],[1,4]],"cells":[0,0,0,0,0,0,0,0,0,0,0,0]}
> {"op":"write_box","path":"/t","box":[[2,4],[0,1]],"cells":[0,0]}
< {"done":true}
> {"op":"read_chunk","path":"/s","chunk":[0,0]}
< {"cells":[1,2,0,0,0,3,4,0,0,0,0,0,0,0,0,0]}
> {"op":"read_chunk","path":"/t","chunk":[0,0]}
< {"cells":[1,0,0,0,5,0,0,0,0,0,0,0,0,0,0,0]}

after:
  s/c/0/0 = 0102 0003 0000000000000000 0200000000000000 0200000000000000 0200000000000000 0400 ffffffffffffffff ffffffffffffffff 0000000000000000 0200000000000000 0000000000000000 2400000000000000 2400000000000000 2200000000000000 ffffffffffffffff ffffffffffffffff ffffffffffffffff ffffffffffffffff
  s/zarr.json = $stored{"shape":[4,4],"chunk_grid":{"name":"regular","configuration":{"chunk_shape":[4,4]}},"codecs":[{"name":"sharding_indexed","configuration":{"chunk_shape":[2,2],"codecs":[{"name":"sharding_indexed","configuration":{"chunk_shape":[1,2],"codecs":["bytes"],"index_codecs":[{"name":"bytes","configuration":{"endian":"little"}}]}}],"index_codecs":[{"name":"bytes","configuration":{"endian":"little"}}]}}]}
  t/c/0/0 = 0100 0500 0000000000000000 0200000000000000 0200000000000000 0200000000000000 0000000000000000 2400000000000000 ffffffffffffffff ffffffffffffffff ffffffffffffffff ffffffffffffffff ffffffffffffffff ffffffffffffffff
  t/zarr.json = $stored{"shape":[4,4],"chunk_grid":{"name":"regular","configuration":{"chunk_shape":[4,4]}},"codecs":[{"name":"sharding_indexed","configuration":{"chunk_shape":[2,2],"codecs":[{"name":"sharding_indexed","configuration":{"chunk_shape":[1,2],"codecs":["bytes"],"index_codecs":[{"name":"bytes","configuration":{"endian":"little"}}]}}],"index_codecs":[{"name":"bytes","configuration":{"endian":"little"}}]}}]}
