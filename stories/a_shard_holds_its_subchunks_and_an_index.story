A shard holds what its subchunks are encoded to, and behind them a pair for each subchunk: where it stands and how long it is, or all ff where it is fill.

> {"op":"create","path":"/s","document":$zeros{"shape":[4,4],"chunk_grid":{"name":"regular","configuration":{"chunk_shape":[4,4]}},"codecs":[{"name":"sharding_indexed","configuration":{"chunk_shape":[2,2],"codecs":["bytes"],"index_codecs":[{"name":"bytes","configuration":{"endian":"little"}}]}}]},"order":"C"}
> {"op":"write_box","path":"/s","box":[[0,2],[2,4]],"cells":[5,6,7,8]}
< {"done":true}
> {"op":"read_box","path":"/s","box":[[0,2],[0,4]]}
< {"cells":[0,0,5,6,0,0,7,8]}
> {"op":"read_box","path":"/s","box":[[1,3],[1,4]]}
< {"cells":[0,7,8,0,0,0]}

after:
  s/c/0/0 = 05060708 ffffffffffffffff ffffffffffffffff 0000000000000000 0400000000000000 ffffffffffffffff ffffffffffffffff ffffffffffffffff ffffffffffffffff
  s/zarr.json = $stored{"shape":[4,4],"chunk_grid":{"name":"regular","configuration":{"chunk_shape":[4,4]}},"codecs":[{"name":"sharding_indexed","configuration":{"chunk_shape":[2,2],"codecs":["bytes"],"index_codecs":[{"name":"bytes","configuration":{"endian":"little"}}]}}]}

# A part of a shard is written: the subchunks stand row-major, as the order of the session's array says.
> {"op":"reopen","path":"/s","order":"C"}
> {"op":"write_box","path":"/s","box":[[0,1],[0,1]],"cells":[9]}
< {"done":true}
> {"op":"read_box","path":"/s","box":[[0,2],[0,4]]}
< {"cells":[9,0,5,6,0,0,7,8]}
> {"op":"read_chunk","path":"/s","chunk":[0,0]}
< {"cells":[9,0,5,6,0,0,7,8,0,0,0,0,0,0,0,0]}

after:
  s/c/0/0 = 09000000 05060708 0000000000000000 0400000000000000 0400000000000000 0400000000000000 ffffffffffffffff ffffffffffffffff ffffffffffffffff ffffffffffffffff
  s/zarr.json = $stored{"shape":[4,4],"chunk_grid":{"name":"regular","configuration":{"chunk_shape":[4,4]}},"codecs":[{"name":"sharding_indexed","configuration":{"chunk_shape":[2,2],"codecs":["bytes"],"index_codecs":[{"name":"bytes","configuration":{"endian":"little"}}]}}]}

# A subchunk that becomes fill has no bytes.
> {"op":"reopen","path":"/s","order":"C"}
> {"op":"write_box","path":"/s","box":[[0,2],[1,4]],"cells":[0,0,0,0,0,0]}
> {"op":"write_box","path":"/s","box":[[3,4],[3,4]],"cells":[3]}
< {"done":true}

after:
  s/c/0/0 = 09000000 00000003 0000000000000000 0400000000000000 ffffffffffffffff ffffffffffffffff ffffffffffffffff ffffffffffffffff 0400000000000000 0400000000000000
  s/zarr.json = $stored{"shape":[4,4],"chunk_grid":{"name":"regular","configuration":{"chunk_shape":[4,4]}},"codecs":[{"name":"sharding_indexed","configuration":{"chunk_shape":[2,2],"codecs":["bytes"],"index_codecs":[{"name":"bytes","configuration":{"endian":"little"}}]}}]}
