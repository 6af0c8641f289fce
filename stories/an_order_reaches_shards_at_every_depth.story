The order that a create or a reopening gives is that of the subchunks of shards at every depth, from the next write of a chunk on.

> {"op":"create","path":"/a","document":$zeros{"shape":[4],"chunk_grid":{"name":"regular","configuration":{"chunk_shape":[4]}},"codecs":[{"name":"sharding_indexed","configuration":{"chunk_shape":[2],"codecs":[{"name":"sharding_indexed","configuration":{"chunk_shape":[1],"codecs":["bytes"],"index_codecs":[{"name":"bytes","configuration":{"endian":"little"}}]}}],"index_codecs":[{"name":"bytes","configuration":{"endian":"little"}}]}}]},"order":"C"}
> {"op":"create","path":"/b","document":$zeros{"shape":[4],"chunk_grid":{"name":"regular","configuration":{"chunk_shape":[4]}},"codecs":[{"name":"sharding_indexed","configuration":{"chunk_shape":[2],"codecs":[{"name":"sharding_indexed","configuration":{"chunk_shape":[1],"codecs":["bytes"],"index_codecs":[{"name":"bytes","configuration":{"endian":"little"}}]}}],"index_codecs":[{"name":"bytes","configuration":{"endian":"little"}}]}}]},"order":"Random"}
> {"op":"create","path":"/c","document":$zeros{"shape":[4],"chunk_grid":{"name":"regular","configuration":{"chunk_shape":[4]}},"codecs":[{"name":"sharding_indexed","configuration":{"chunk_shape":[2],"codecs":[{"name":"sharding_indexed","configuration":{"chunk_shape":[1],"codecs":["bytes"],"index_codecs":[{"name":"bytes","configuration":{"endian":"little"}}]}}],"index_codecs":[{"name":"bytes","configuration":{"endian":"little"}}]}}]}}
> {"op":"write_chunk","path":"/a","chunk":[0],"cells":[1,2,3,4]}
> {"op":"write_chunk","path":"/b","chunk":[0],"cells":[1,2,3,4]}
> {"op":"write_chunk","path":"/c","chunk":[0],"cells":[1,2,3,4]}
< {"done":true}
> {"op":"read_box","path":"/b","box":[[1,4]]}
> {"op":"read_box","path":"/c","box":[[1,4]]}
< {"cells":[2,3,4]}
# Held arrays take another order.
> {"op":"reopen","path":"/b","order":"C"}
> {"op":"reopen","path":"/c","order":"C"}
> {"op":"write_chunk","path":"/b","chunk":[0],"cells":[1,2,3,4]}
> {"op":"write_box","path":"/c","box":[[3,4]],"cells":[9]}
< {"done":true}

after:
  a/c/0 = 01 02 0000000000000000 0100000000000000 0100000000000000 0100000000000000 03 04 0000000000000000 0100000000000000 0100000000000000 0100000000000000 0000000000000000 2200000000000000 2200000000000000 2200000000000000
  a/zarr.json = $stored{"shape":[4],"chunk_grid":{"name":"regular","configuration":{"chunk_shape":[4]}},"codecs":[{"name":"sharding_indexed","configuration":{"chunk_shape":[2],"codecs":[{"name":"sharding_indexed","configuration":{"chunk_shape":[1],"codecs":["bytes"],"index_codecs":[{"name":"bytes","configuration":{"endian":"little"}}]}}],"index_codecs":[{"name":"bytes","configuration":{"endian":"little"}}]}}]}
  b/c/0 = 01 02 0000000000000000 0100000000000000 0100000000000000 0100000000000000 03 04 0000000000000000 0100000000000000 0100000000000000 0100000000000000 0000000000000000 2200000000000000 2200000000000000 2200000000000000
  b/zarr.json = $stored{"shape":[4],"chunk_grid":{"name":"regular","configuration":{"chunk_shape":[4]}},"codecs":[{"name":"sharding_indexed","configuration":{"chunk_shape":[2],"codecs":[{"name":"sharding_indexed","configuration":{"chunk_shape":[1],"codecs":["bytes"],"index_codecs":[{"name":"bytes","configuration":{"endian":"little"}}]}}],"index_codecs":[{"name":"bytes","configuration":{"endian":"little"}}]}}]}
  c/c/0 = 01 02 0000000000000000 0100000000000000 0100000000000000 0100000000000000 03 09 0000000000000000 0100000000000000 0100000000000000 0100000000000000 0000000000000000 2200000000000000 2200000000000000 2200000000000000
  c/zarr.json = $stored{"shape":[4],"chunk_grid":{"name":"regular","configuration":{"chunk_shape":[4]}},"codecs":[{"name":"sharding_indexed","configuration":{"chunk_shape":[2],"codecs":[{"name":"sharding_indexed","configuration":{"chunk_shape":[1],"codecs":["bytes"],"index_codecs":[{"name":"bytes","configuration":{"endian":"little"}}]}}],"index_codecs":[{"name":"bytes","configuration":{"endian":"little"}}]}}]}

# The order is no part of a document: another session says it again, or not.
> {"op":"reopen","path":"/a","order":"Random"}
> {"op":"reopen","path":"/b"}
> {"op":"reopen","path":"/c","order":"C"}
< {"done":true}
> {"op":"read_box","path":"/a","box":[[0,4]]}
> {"op":"read_box","path":"/b","box":[[0,4]]}
< {"cells":[1,2,3,4]}
> {"op":"write_box","path":"/c","box":[[1,3]],"cells":[0,7]}
< {"done":true}

after:
  a/c/0 = 01 02 0000000000000000 0100000000000000 0100000000000000 0100000000000000 03 04 0000000000000000 0100000000000000 0100000000000000 0100000000000000 0000000000000000 2200000000000000 2200000000000000 2200000000000000
  a/zarr.json = $stored{"shape":[4],"chunk_grid":{"name":"regular","configuration":{"chunk_shape":[4]}},"codecs":[{"name":"sharding_indexed","configuration":{"chunk_shape":[2],"codecs":[{"name":"sharding_indexed","configuration":{"chunk_shape":[1],"codecs":["bytes"],"index_codecs":[{"name":"bytes","configuration":{"endian":"little"}}]}}],"index_codecs":[{"name":"bytes","configuration":{"endian":"little"}}]}}]}
  b/c/0 = 01 02 0000000000000000 0100000000000000 0100000000000000 0100000000000000 03 04 0000000000000000 0100000000000000 0100000000000000 0100000000000000 0000000000000000 2200000000000000 2200000000000000 2200000000000000
  b/zarr.json = $stored{"shape":[4],"chunk_grid":{"name":"regular","configuration":{"chunk_shape":[4]}},"codecs":[{"name":"sharding_indexed","configuration":{"chunk_shape":[2],"codecs":[{"name":"sharding_indexed","configuration":{"chunk_shape":[1],"codecs":["bytes"],"index_codecs":[{"name":"bytes","configuration":{"endian":"little"}}]}}],"index_codecs":[{"name":"bytes","configuration":{"endian":"little"}}]}}]}
  c/c/0 = 01 0000000000000000 0100000000000000 ffffffffffffffff ffffffffffffffff 07 09 0000000000000000 0100000000000000 0100000000000000 0100000000000000 0000000000000000 2100000000000000 2100000000000000 2200000000000000
  c/zarr.json = $stored{"shape":[4],"chunk_grid":{"name":"regular","configuration":{"chunk_shape":[4]}},"codecs":[{"name":"sharding_indexed","configuration":{"chunk_shape":[2],"codecs":[{"name":"sharding_indexed","configuration":{"chunk_shape":[1],"codecs":["bytes"],"index_codecs":[{"name":"bytes","configuration":{"endian":"little"}}]}}],"index_codecs":[{"name":"bytes","configuration":{"endian":"little"}}]}}]}
