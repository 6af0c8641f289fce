A compaction looks at the pairs of a shard's index alone: each that is present has to lie in the data. What the slices hold doesn't matter to it, and does to a rewrite.

# As in the story of damaged shards that are read, and besides: a pair that points into an index at the start; a byte that is no boolean, behind a gap.
before:
  past/c/0 = 0102 0000000000000000 0200000000000000 6400000000000000 0200000000000000
  cut/c/0 = 0102 00
  long/c/0 = 0102 0000000000000000 0200000000000000 0000000000000000 ffffffffffffffff
  far/c/0 = 0102 0000000000000000 0200000000000000 ffffffffffffffff 0000000000000000
  inside/c/0 = 0102 0000000000000000 0200000000000000 0200000000000000 0200000000000000
  start/c/0 = 0000000000000000 0200000000000000 2000000000000000 0200000000000000 0102
  inner/c/0 = 01 0000000000000000 0100000000000000 ffffffffffffffff ffffffffffffffff 0203 0000000000000000 2100000000000000 2100000000000000 0200000000000000
  byte/c/0 = 63 0102 0100000000000000 0200000000000000 ffffffffffffffff ffffffffffffffff
  past/zarr.json = $stored_shard
  cut/zarr.json = $stored_shard
  long/zarr.json = $stored_shard
  far/zarr.json = $stored_shard
  inside/zarr.json = $stored_shard
  start/zarr.json = $stored_shard{"codecs":[{"name":"sharding_indexed","configuration":{"chunk_shape":[2],"codecs":["bytes"],"index_codecs":[{"name":"bytes","configuration":{"endian":"little"}}],"index_location":"start"}}]}
  inner/zarr.json = $stored_shard{"codecs":[{"name":"sharding_indexed","configuration":{"chunk_shape":[2],"codecs":[{"name":"sharding_indexed","configuration":{"chunk_shape":[1],"codecs":["bytes"],"index_codecs":[{"name":"bytes","configuration":{"endian":"little"}}]}}],"index_codecs":[{"name":"bytes","configuration":{"endian":"little"}}]}}]}
  byte/zarr.json = $stored_shard{"data_type":"bool","fill_value":false}

> {"op":"reopen","path":"/past","order":"C"}
> {"op":"reopen","path":"/cut","order":"C"}
> {"op":"reopen","path":"/long","order":"C"}
> {"op":"reopen","path":"/far","order":"C"}
> {"op":"reopen","path":"/inside","order":"C"}
> {"op":"reopen","path":"/start","order":"C"}
> {"op":"reopen","path":"/inner","order":"C"}
> {"op":"reopen","path":"/byte","order":"C"}
< {"done":true}
> {"op":"compact","path":"/past","chunk":[0]}
> {"op":"compact","path":"/cut","chunk":[0]}
> {"op":"compact","path":"/long","chunk":[0]}
> {"op":"compact","path":"/far","chunk":[0]}
> {"op":"compact","path":"/inside","chunk":[0]}
> {"op":"compact","path":"/start","chunk":[0]}
> {"op":"rewrite","path":"/past"}
> {"op":"rewrite","path":"/cut"}
> {"op":"rewrite","path":"/long"}
> {"op":"rewrite","path":"/far"}
> {"op":"rewrite","path":"/inner"}
> {"op":"rewrite","path":"/byte"}
< {"applied":0,"refused":"Damage"}
> {"op":"compact","path":"/inner","chunk":[0]}
< {"compacted":false}

after: as before

# A pair that points into the index is read, so the shard is rewritten; and a slice is moved that is no value.
> {"op":"reopen","path":"/inside","order":"C"}
> {"op":"reopen","path":"/byte","order":"C"}
> {"op":"rewrite","path":"/inside"}
< {"done":true}
> {"op":"compact","path":"/byte","chunk":[0]}
< {"compacted":true}

after:
  past/c/0 = 0102 0000000000000000 0200000000000000 6400000000000000 0200000000000000
  cut/c/0 = 0102 00
  long/c/0 = 0102 0000000000000000 0200000000000000 0000000000000000 ffffffffffffffff
  far/c/0 = 0102 0000000000000000 0200000000000000 ffffffffffffffff 0000000000000000
  inside/c/0 = 0102 0000000000000000 0200000000000000 ffffffffffffffff ffffffffffffffff
  start/c/0 = 0000000000000000 0200000000000000 2000000000000000 0200000000000000 0102
  inner/c/0 = 01 0000000000000000 0100000000000000 ffffffffffffffff ffffffffffffffff 0203 0000000000000000 2100000000000000 2100000000000000 0200000000000000
  byte/c/0 = 0102 0000000000000000 0200000000000000 ffffffffffffffff ffffffffffffffff
  past/zarr.json = $stored_shard
  cut/zarr.json = $stored_shard
  long/zarr.json = $stored_shard
  far/zarr.json = $stored_shard
  inside/zarr.json = $stored_shard
  start/zarr.json = $stored_shard{"codecs":[{"name":"sharding_indexed","configuration":{"chunk_shape":[2],"codecs":["bytes"],"index_codecs":[{"name":"bytes","configuration":{"endian":"little"}}],"index_location":"start"}}]}
  inner/zarr.json = $stored_shard{"codecs":[{"name":"sharding_indexed","configuration":{"chunk_shape":[2],"codecs":[{"name":"sharding_indexed","configuration":{"chunk_shape":[1],"codecs":["bytes"],"index_codecs":[{"name":"bytes","configuration":{"endian":"little"}}]}}],"index_codecs":[{"name":"bytes","configuration":{"endian":"little"}}]}}]}
  byte/zarr.json = $stored_shard{"data_type":"bool","fill_value":false}
