A compaction stores a shard anew that is longer or shorter than its index and its slices together: these stand row-major and without gaps then. A shard that gains nothing is left as it is.

# A gap of one byte; two slices in another order, without a gap; the first slice of an index at the start is one that stood elsewhere before; both pairs at one slice; no slice, but a gap.
before:
  a/c/0 = 0102 63 0304 0000000000000000 0200000000000000 0300000000000000 0200000000000000
  b/c/0/0 = 05060708 09000000 0400000000000000 0400000000000000 0000000000000000 0400000000000000 ffffffffffffffff ffffffffffffffff ffffffffffffffff ffffffffffffffff
  c/c/0/0 = 4000000000000000 0800000000000000 6000000000000000 0800000000000000 5000000000000000 0800000000000000 5800000000000000 0800000000000000 0000 0100 0400 0500  0200 0300 0600 0700  0800 0900 0c00 0d00  0a00 0b00 0e00 0f00  6400 6500 6600 6700
  d/c/0 = 0102 0000000000000000 0200000000000000 0000000000000000 0200000000000000
  e/c/0 = 63 ffffffffffffffff ffffffffffffffff ffffffffffffffff ffffffffffffffff
  a/zarr.json = $stored_shard
  b/zarr.json = $stored_square_shard
  c/zarr.json = $stored_square_shard{"data_type":"uint16","codecs":[{"name":"sharding_indexed","configuration":{"chunk_shape":[2,2],"codecs":[{"name":"bytes","configuration":{"endian":"little"}}],"index_codecs":[{"name":"bytes","configuration":{"endian":"little"}}],"index_location":"start"}}]}
  d/zarr.json = $stored_shard
  e/zarr.json = $stored_shard{"shape":[8]}

> {"op":"reopen","path":"/a"}
> {"op":"reopen","path":"/b","order":"C"}
> {"op":"reopen","path":"/c","order":"C"}
> {"op":"reopen","path":"/d","order":"Random"}
> {"op":"reopen","path":"/e"}
< {"done":true}
> {"op":"compact","path":"/a","chunk":[0]}
> {"op":"compact","path":"/c","chunk":[0,0]}
> {"op":"compact","path":"/d","chunk":[0],"options":{"partial":true,"empty":true}}
> {"op":"compact","path":"/e","chunk":[0]}
< {"compacted":true}
> {"op":"compact","path":"/b","chunk":[0,0]}
# No value is stored for this chunk.
> {"op":"compact","path":"/e","chunk":[1]}
< {"compacted":false}
> {"op":"read_chunk","path":"/a","chunk":[0]}
< {"cells":[1,2,3,4]}
> {"op":"read_box","path":"/b","box":[[0,2],[0,4]]}
< {"cells":[9,0,5,6,0,0,7,8]}
> {"op":"read_chunk","path":"/c","chunk":[0,0]}
< {"cells":[0,1,100,101,4,5,102,103,8,9,10,11,12,13,14,15]}
> {"op":"read_chunk","path":"/d","chunk":[0]}
< {"cells":[1,2,1,2]}
> {"op":"read_chunk","path":"/e","chunk":[0]}
< {"cells":[0,0,0,0]}
# The second time nothing is gained.
> {"op":"compact","path":"/a","chunk":[0]}
> {"op":"compact","path":"/c","chunk":[0,0]}
> {"op":"compact","path":"/d","chunk":[0]}
> {"op":"compact","path":"/e","chunk":[0]}
< {"compacted":false}

after:
  a/c/0 = 0102 0304 0000000000000000 0200000000000000 0200000000000000 0200000000000000
  b/c/0/0 = 05060708 09000000 0400000000000000 0400000000000000 0000000000000000 0400000000000000 ffffffffffffffff ffffffffffffffff ffffffffffffffff ffffffffffffffff
  c/c/0/0 = 4000000000000000 0800000000000000 4800000000000000 0800000000000000 5000000000000000 0800000000000000 5800000000000000 0800000000000000 0000 0100 0400 0500  6400 6500 6600 6700  0800 0900 0c00 0d00  0a00 0b00 0e00 0f00
  d/c/0 = 0102 0102 0000000000000000 0200000000000000 0200000000000000 0200000000000000
  e/c/0 = ffffffffffffffff ffffffffffffffff ffffffffffffffff ffffffffffffffff
  a/zarr.json = $stored_shard
  b/zarr.json = $stored_square_shard
  c/zarr.json = $stored_square_shard{"data_type":"uint16","codecs":[{"name":"sharding_indexed","configuration":{"chunk_shape":[2,2],"codecs":[{"name":"bytes","configuration":{"endian":"little"}}],"index_codecs":[{"name":"bytes","configuration":{"endian":"little"}}],"index_location":"start"}}]}
  d/zarr.json = $stored_shard
  e/zarr.json = $stored_shard{"shape":[8]}

# It writes once: where the store refuses that, the gap stays.
before:
  a/c/0 = 0102 63 0304 0000000000000000 0200000000000000 0300000000000000 0200000000000000
  refuse write 1

> {"op":"reopen","path":"/a"}
< {"done":true}
> {"op":"compact","path":"/a","chunk":[0]}
< {"applied":0,"refused":"Store"}
> {"op":"read_chunk","path":"/a","chunk":[0]}
< {"cells":[1,2,3,4]}

after: as before
