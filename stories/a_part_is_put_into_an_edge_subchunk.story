With the option for partial encoding, parts are put into subchunks that end with their shard, at both depths; a compaction takes the gaps out.

> {"op":"create","path":"/a","document":$zeros{"shape":[3,3],"chunk_grid":{"name":"regular","configuration":{"chunk_shape":[3,3]}},"codecs":[{"name":"sharding_indexed","configuration":{"chunk_shape":[2,2],"codecs":["bytes"],"index_codecs":[{"name":"bytes","configuration":{"endian":"little"}}]}}]},"order":"C"}
> {"op":"create","path":"/m","document":$zeros{"shape":[3],"chunk_grid":{"name":"regular","configuration":{"chunk_shape":[3]}},"codecs":[{"name":"sharding_indexed","configuration":{"chunk_shape":[2],"codecs":["bytes"],"index_codecs":[{"name":"bytes","configuration":{"endian":"little"}}]}}]},"order":"C"}
> {"op":"create","path":"/n","document":$zeros{"shape":[5],"chunk_grid":{"name":"regular","configuration":{"chunk_shape":[5]}},"codecs":[{"name":"sharding_indexed","configuration":{"chunk_shape":[3],"codecs":[{"name":"sharding_indexed","configuration":{"chunk_shape":[2],"codecs":["bytes"],"index_codecs":[{"name":"bytes","configuration":{"endian":"little"}}]}}],"index_codecs":[{"name":"bytes","configuration":{"endian":"little"}}]}}]},"order":"C"}
< {"done":true}
> {"op":"write_chunk","path":"/a","chunk":[0,0],"cells":[1,2,3,4,5,6,7,8,9]}
> {"op":"write_chunk","path":"/n","chunk":[0],"cells":[1,2,3,4,5]}
> {"op":"write_box","path":"/a","box":[[2,3],[2,3]],"cells":[0],"options":{"partial":true}}
> {"op":"write_box","path":"/m","box":[[2,3]],"cells":[7],"options":{"partial":true}}
> {"op":"write_box","path":"/n","box":[[4,5]],"cells":[9],"options":{"partial":true}}
< {"done":true}
> {"op":"read_box","path":"/a","box":[[1,3],[1,3]]}
< {"cells":[5,6,8,0]}
> {"op":"read_box","path":"/m","box":[[1,3]]}
< {"cells":[0,7]}
> {"op":"read_box","path":"/n","box":[[2,5]]}
< {"cells":[3,4,9]}

after:
  a/c/0/0 = 01020405 0306 0708 09 0000000000000000 0400000000000000 0400000000000000 0200000000000000 0600000000000000 0200000000000000 ffffffffffffffff ffffffffffffffff
  a/zarr.json = $stored{"shape":[3,3],"chunk_grid":{"name":"regular","configuration":{"chunk_shape":[3,3]}},"codecs":[{"name":"sharding_indexed","configuration":{"chunk_shape":[2,2],"codecs":["bytes"],"index_codecs":[{"name":"bytes","configuration":{"endian":"little"}}]}}]}
  m/c/0 = 07 ffffffffffffffff ffffffffffffffff 0000000000000000 0100000000000000
  m/zarr.json = $stored{"shape":[3],"chunk_grid":{"name":"regular","configuration":{"chunk_shape":[3]}},"codecs":[{"name":"sharding_indexed","configuration":{"chunk_shape":[2],"codecs":["bytes"],"index_codecs":[{"name":"bytes","configuration":{"endian":"little"}}]}}]}
  n/c/0 = 010203 0000000000000000 0200000000000000 0200000000000000 0100000000000000 0405 0000000000000000 0200000000000000 0409 0000000000000000 0200000000000000 0000000000000000 2300000000000000 3500000000000000 1200000000000000
  n/zarr.json = $stored{"shape":[5],"chunk_grid":{"name":"regular","configuration":{"chunk_shape":[5]}},"codecs":[{"name":"sharding_indexed","configuration":{"chunk_shape":[3],"codecs":[{"name":"sharding_indexed","configuration":{"chunk_shape":[2],"codecs":["bytes"],"index_codecs":[{"name":"bytes","configuration":{"endian":"little"}}]}}],"index_codecs":[{"name":"bytes","configuration":{"endian":"little"}}]}}]}

> {"op":"reopen","path":"/a","order":"C"}
> {"op":"reopen","path":"/m","order":"C"}
> {"op":"reopen","path":"/n","order":"C"}
< {"done":true}
> {"op":"compact","path":"/a","chunk":[0,0]}
> {"op":"compact","path":"/n","chunk":[0]}
< {"compacted":true}
> {"op":"compact","path":"/m","chunk":[0]}
> {"op":"compact","path":"/a","chunk":[0,0]}
< {"compacted":false}
> {"op":"read_chunk","path":"/a","chunk":[0,0]}
< {"cells":[1,2,3,4,5,6,7,8,0]}

after:
  a/c/0/0 = 01020405 0306 0708 0000000000000000 0400000000000000 0400000000000000 0200000000000000 0600000000000000 0200000000000000 ffffffffffffffff ffffffffffffffff
  a/zarr.json = $stored{"shape":[3,3],"chunk_grid":{"name":"regular","configuration":{"chunk_shape":[3,3]}},"codecs":[{"name":"sharding_indexed","configuration":{"chunk_shape":[2,2],"codecs":["bytes"],"index_codecs":[{"name":"bytes","configuration":{"endian":"little"}}]}}]}
  m/c/0 = 07 ffffffffffffffff ffffffffffffffff 0000000000000000 0100000000000000
  m/zarr.json = $stored{"shape":[3],"chunk_grid":{"name":"regular","configuration":{"chunk_shape":[3]}},"codecs":[{"name":"sharding_indexed","configuration":{"chunk_shape":[2],"codecs":["bytes"],"index_codecs":[{"name":"bytes","configuration":{"endian":"little"}}]}}]}
  n/c/0 = 010203 0000000000000000 0200000000000000 0200000000000000 0100000000000000 0409 0000000000000000 0200000000000000 0000000000000000 2300000000000000 2300000000000000 1200000000000000
  n/zarr.json = $stored{"shape":[5],"chunk_grid":{"name":"regular","configuration":{"chunk_shape":[5]}},"codecs":[{"name":"sharding_indexed","configuration":{"chunk_shape":[3],"codecs":[{"name":"sharding_indexed","configuration":{"chunk_shape":[2],"codecs":["bytes"],"index_codecs":[{"name":"bytes","configuration":{"endian":"little"}}]}}],"index_codecs":[{"name":"bytes","configuration":{"endian":"little"}}]}}]}

# A box in all four subchunks, one that is an edge subchunk as a whole, and one that leaves a shard all fill.
> {"op":"reopen","path":"/a","order":"C"}
> {"op":"reopen","path":"/m","order":"C"}
> {"op":"reopen","path":"/n","order":"C"}
> {"op":"write_box","path":"/a","box":[[0,2],[2,3]],"cells":[9,0],"options":{"partial":true}}
> {"op":"write_box","path":"/a","box":[[1,3],[1,3]],"cells":[10,11,12,13],"options":{"partial":true}}
> {"op":"write_box","path":"/m","box":[[2,3]],"cells":[0],"options":{"partial":true}}
> {"op":"write_box","path":"/n","box":[[3,5]],"cells":[0,0],"options":{"partial":true}}
< {"done":true}
> {"op":"read_chunk","path":"/a","chunk":[0,0]}
< {"cells":[1,2,9,4,10,11,7,12,13]}
> {"op":"read_chunk","path":"/n","chunk":[0]}
< {"cells":[1,2,3,0,0]}

after:
  a/c/0/0 = 01020405 0306 0708 0900 0102040a 090b 070c 0d 0a00000000000000 0400000000000000 0e00000000000000 0200000000000000 1000000000000000 0200000000000000 1200000000000000 0100000000000000
  a/zarr.json = $stored{"shape":[3,3],"chunk_grid":{"name":"regular","configuration":{"chunk_shape":[3,3]}},"codecs":[{"name":"sharding_indexed","configuration":{"chunk_shape":[2,2],"codecs":["bytes"],"index_codecs":[{"name":"bytes","configuration":{"endian":"little"}}]}}]}
  m/zarr.json = $stored{"shape":[3],"chunk_grid":{"name":"regular","configuration":{"chunk_shape":[3]}},"codecs":[{"name":"sharding_indexed","configuration":{"chunk_shape":[2],"codecs":["bytes"],"index_codecs":[{"name":"bytes","configuration":{"endian":"little"}}]}}]}
  n/c/0 = 010203 0000000000000000 0200000000000000 0200000000000000 0100000000000000 0409 0000000000000000 0200000000000000 0000000000000000 2300000000000000 ffffffffffffffff ffffffffffffffff
  n/zarr.json = $stored{"shape":[5],"chunk_grid":{"name":"regular","configuration":{"chunk_shape":[5]}},"codecs":[{"name":"sharding_indexed","configuration":{"chunk_shape":[3],"codecs":[{"name":"sharding_indexed","configuration":{"chunk_shape":[2],"codecs":["bytes"],"index_codecs":[{"name":"bytes","configuration":{"endian":"little"}}]}}],"index_codecs":[{"name":"bytes","configuration":{"endian":"little"}}]}}]}

# Without the option a shard is encoded whole.
> {"op":"reopen","path":"/a","order":"C"}
> {"op":"write_box","path":"/a","box":[[2,3],[2,3]],"cells":[14]}
< {"done":true}

after:
  a/c/0/0 = 0102040a 090b 070c 0e 0000000000000000 0400000000000000 0400000000000000 0200000000000000 0600000000000000 0200000000000000 0800000000000000 0100000000000000
  a/zarr.json = $stored{"shape":[3,3],"chunk_grid":{"name":"regular","configuration":{"chunk_shape":[3,3]}},"codecs":[{"name":"sharding_indexed","configuration":{"chunk_shape":[2,2],"codecs":["bytes"],"index_codecs":[{"name":"bytes","configuration":{"endian":"little"}}]}}]}
  m/zarr.json = $stored{"shape":[3],"chunk_grid":{"name":"regular","configuration":{"chunk_shape":[3]}},"codecs":[{"name":"sharding_indexed","configuration":{"chunk_shape":[2],"codecs":["bytes"],"index_codecs":[{"name":"bytes","configuration":{"endian":"little"}}]}}]}
  n/c/0 = 010203 0000000000000000 0200000000000000 0200000000000000 0100000000000000 0409 0000000000000000 0200000000000000 0000000000000000 2300000000000000 ffffffffffffffff ffffffffffffffff
  n/zarr.json = $stored{"shape":[5],"chunk_grid":{"name":"regular","configuration":{"chunk_shape":[5]}},"codecs":[{"name":"sharding_indexed","configuration":{"chunk_shape":[3],"codecs":[{"name":"sharding_indexed","configuration":{"chunk_shape":[2],"codecs":["bytes"],"index_codecs":[{"name":"bytes","configuration":{"endian":"little"}}]}}],"index_codecs":[{"name":"bytes","configuration":{"endian":"little"}}]}}]}
