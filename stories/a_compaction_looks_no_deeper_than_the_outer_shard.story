A compaction takes gaps out of the outer shard alone, through the codecs before and behind it. Inner shards, and the gaps in them, are slices like others.

# The outer shard and its first inner one have gaps. A shard of 4 by 2 behind a transpose has its three slices in the opposite order, with a gap. One whose bytes are reversed has a gap.
before:
  n/c/0 = 6363 01 63 02 0000000000000000 0100000000000000 0200000000000000 0100000000000000 04 ffffffffffffffff ffffffffffffffff 0000000000000000 0100000000000000 0200000000000000 2300000000000000 2500000000000000 2100000000000000
  t/c/0/0 = 0304 63 0506 0102 0500000000000000 0200000000000000 0300000000000000 0200000000000000 0000000000000000 0200000000000000 ffffffffffffffff ffffffffffffffff
  x/c/0 = 0000000000000002 0000000000000003 0000000000000002 0000000000000000 04 03 63 02 01
  n/zarr.json = $stored_shard{"codecs":[{"name":"sharding_indexed","configuration":{"chunk_shape":[2],"codecs":[{"name":"sharding_indexed","configuration":{"chunk_shape":[1],"codecs":["bytes"],"index_codecs":[{"name":"bytes","configuration":{"endian":"little"}}]}}],"index_codecs":[{"name":"bytes","configuration":{"endian":"little"}}]}}]}
  t/zarr.json = $stored_shard{"shape":[2,4],"chunk_grid":{"name":"regular","configuration":{"chunk_shape":[2,4]}},"codecs":[{"name":"transpose","configuration":{"order":[1,0]}},{"name":"sharding_indexed","configuration":{"chunk_shape":[2,1],"codecs":["bytes"],"index_codecs":[{"name":"bytes","configuration":{"endian":"little"}}]}}]}
  x/zarr.json = $stored_shard{"codecs":[{"name":"sharding_indexed","configuration":{"chunk_shape":[2],"codecs":["bytes"],"index_codecs":[{"name":"bytes","configuration":{"endian":"little"}}]}},"x-reverse"]}

> {"op":"reopen","path":"/n","order":"C"}
> {"op":"reopen","path":"/t","order":"C"}
> {"op":"reopen","path":"/x","order":"C"}
< {"done":true}
> {"op":"compact","path":"/n","chunk":[0]}
> {"op":"compact","path":"/t","chunk":[0,0]}
> {"op":"compact","path":"/x","chunk":[0]}
< {"compacted":true}
> {"op":"compact","path":"/n","chunk":[0]}
> {"op":"compact","path":"/t","chunk":[0,0]}
> {"op":"compact","path":"/x","chunk":[0]}
< {"compacted":false}
> {"op":"read_chunk","path":"/n","chunk":[0]}
< {"cells":[1,2,0,4]}
> {"op":"read_chunk","path":"/t","chunk":[0,0]}
< {"cells":[1,2,3,4,5,6,0,0]}
> {"op":"read_chunk","path":"/x","chunk":[0]}
< {"cells":[1,2,3,4]}

after:
  n/c/0 = 01 63 02 0000000000000000 0100000000000000 0200000000000000 0100000000000000 04 ffffffffffffffff ffffffffffffffff 0000000000000000 0100000000000000 0000000000000000 2300000000000000 2300000000000000 2100000000000000
  t/c/0/0 = 0102 0506 0304 0000000000000000 0200000000000000 0200000000000000 0200000000000000 0400000000000000 0200000000000000 ffffffffffffffff ffffffffffffffff
  x/c/0 = 0000000000000002 0000000000000002 0000000000000002 0000000000000000 04 03 02 01
  n/zarr.json = $stored_shard{"codecs":[{"name":"sharding_indexed","configuration":{"chunk_shape":[2],"codecs":[{"name":"sharding_indexed","configuration":{"chunk_shape":[1],"codecs":["bytes"],"index_codecs":[{"name":"bytes","configuration":{"endian":"little"}}]}}],"index_codecs":[{"name":"bytes","configuration":{"endian":"little"}}]}}]}
  t/zarr.json = $stored_shard{"shape":[2,4],"chunk_grid":{"name":"regular","configuration":{"chunk_shape":[2,4]}},"codecs":[{"name":"transpose","configuration":{"order":[1,0]}},{"name":"sharding_indexed","configuration":{"chunk_shape":[2,1],"codecs":["bytes"],"index_codecs":[{"name":"bytes","configuration":{"endian":"little"}}]}}]}
  x/zarr.json = $stored_shard{"codecs":[{"name":"sharding_indexed","configuration":{"chunk_shape":[2],"codecs":["bytes"],"index_codecs":[{"name":"bytes","configuration":{"endian":"little"}}]}},"x-reverse"]}

# A rewrite takes the gap out of the inner shard too.
> {"op":"reopen","path":"/n","order":"C"}
> {"op":"rewrite","path":"/n"}
< {"done":true}

after:
  n/c/0 = 01 02 0000000000000000 0100000000000000 0100000000000000 0100000000000000 04 ffffffffffffffff ffffffffffffffff 0000000000000000 0100000000000000 0000000000000000 2200000000000000 2200000000000000 2100000000000000
  t/c/0/0 = 0102 0506 0304 0000000000000000 0200000000000000 0200000000000000 0200000000000000 0400000000000000 0200000000000000 ffffffffffffffff ffffffffffffffff
  x/c/0 = 0000000000000002 0000000000000002 0000000000000002 0000000000000000 04 03 02 01
  n/zarr.json = $stored_shard{"codecs":[{"name":"sharding_indexed","configuration":{"chunk_shape":[2],"codecs":[{"name":"sharding_indexed","configuration":{"chunk_shape":[1],"codecs":["bytes"],"index_codecs":[{"name":"bytes","configuration":{"endian":"little"}}]}}],"index_codecs":[{"name":"bytes","configuration":{"endian":"little"}}]}}]}
  t/zarr.json = $stored_shard{"shape":[2,4],"chunk_grid":{"name":"regular","configuration":{"chunk_shape":[2,4]}},"codecs":[{"name":"transpose","configuration":{"order":[1,0]}},{"name":"sharding_indexed","configuration":{"chunk_shape":[2,1],"codecs":["bytes"],"index_codecs":[{"name":"bytes","configuration":{"endian":"little"}}]}}]}
  x/zarr.json = $stored_shard{"codecs":[{"name":"sharding_indexed","configuration":{"chunk_shape":[2],"codecs":["bytes"],"index_codecs":[{"name":"bytes","configuration":{"endian":"little"}}]}},"x-reverse"]}
