A rewrite stores each shard anew of its cells, as a chunk is that is written whole into another array: subchunks stand row-major and without gaps at both depths, and those that are all fill have no slice. The keys and bytes of /a to /z become those of /f/a to /f/z.

# A gap; slices in another order; no slice; an index at the start and a slice that stood elsewhere; gaps and another order at both depths; a chunk that lies past its array; a slice of fill.
before:
  a/c/0 = 0102 63 0304 0000000000000000 0200000000000000 0300000000000000 0200000000000000
  b/c/0/0 = 05060708 09000000 0400000000000000 0400000000000000 0000000000000000 0400000000000000 ffffffffffffffff ffffffffffffffff ffffffffffffffff ffffffffffffffff
  e/c/0 = ffffffffffffffff ffffffffffffffff ffffffffffffffff ffffffffffffffff
  i/c/0/0 = 4000000000000000 0800000000000000 6000000000000000 0800000000000000 5000000000000000 0800000000000000 5800000000000000 0800000000000000 0000 0100 0400 0500  0200 0300 0600 0700  0800 0900 0c00 0d00  0a00 0b00 0e00 0f00  6400 6500 6600 6700
  n/c/0/0 = 0b0c 090a 0200000000000000 0200000000000000 0000000000000000 0200000000000000 6363 63 0102 0100000000000000 0200000000000000 ffffffffffffffff ffffffffffffffff 2600000000000000 2300000000000000 ffffffffffffffff ffffffffffffffff 0000000000000000 2400000000000000 ffffffffffffffff ffffffffffffffff
  v/c/2/2 = 0708090a0b0c 010203040506 0600000000000000 0600000000000000 0000000000000000 0600000000000000
  z/c/0 = 0000 0304 0000000000000000 0200000000000000 0200000000000000 0200000000000000
  a/zarr.json = $stored_shard
  b/zarr.json = $stored_square_shard
  e/zarr.json = $stored_shard
  i/zarr.json = $stored_square_shard{"data_type":"uint16","codecs":[{"name":"sharding_indexed","configuration":{"chunk_shape":[2,2],"codecs":[{"name":"bytes","configuration":{"endian":"little"}}],"index_codecs":[{"name":"bytes","configuration":{"endian":"little"}}],"index_location":"start"}}]}
  n/zarr.json = $stored_nested_shard
  v/zarr.json = $stored_shard{"shape":[6,6],"chunk_grid":{"name":"rectilinear","configuration":{"kind":"inline","chunk_shapes":[[4,4,4],[3,3,3]]}},"codecs":[{"name":"sharding_indexed","configuration":{"chunk_shape":[2,3],"codecs":["bytes"],"index_codecs":[{"name":"bytes","configuration":{"endian":"little"}}]}}]}
  z/zarr.json = $stored_shard

> {"op":"reopen","path":"/a","order":"C"}
> {"op":"reopen","path":"/b","order":"C"}
> {"op":"reopen","path":"/e","order":"C"}
> {"op":"reopen","path":"/i","order":"C"}
> {"op":"reopen","path":"/n","order":"C"}
> {"op":"reopen","path":"/v","order":"C"}
> {"op":"reopen","path":"/z","order":"C"}
> {"op":"rewrite","path":"/a"}
> {"op":"rewrite","path":"/b"}
> {"op":"rewrite","path":"/e"}
> {"op":"rewrite","path":"/i"}
> {"op":"rewrite","path":"/n"}
> {"op":"rewrite","path":"/v"}
> {"op":"rewrite","path":"/z"}
< {"done":true}
> {"op":"read_chunk","path":"/a","chunk":[0]}
< {"cells":[1,2,3,4]}
> {"op":"read_chunk","path":"/b","chunk":[0,0]}
< {"cells":[9,0,5,6,0,0,7,8,0,0,0,0,0,0,0,0]}
> {"op":"read_chunk","path":"/e","chunk":[0]}
< {"cells":[0,0,0,0]}
> {"op":"read_chunk","path":"/i","chunk":[0,0]}
< {"cells":[0,1,100,101,4,5,102,103,8,9,10,11,12,13,14,15]}
> {"op":"read_chunk","path":"/n","chunk":[0,0]}
< {"cells":[1,2,0,0,0,0,0,0,9,10,0,0,11,12,0,0]}
> {"op":"read_chunk","path":"/v","chunk":[2,2]}
< {"cells":[1,2,3,4,5,6,7,8,9,10,11,12]}
> {"op":"read_chunk","path":"/z","chunk":[0]}
< {"cells":[0,0,3,4]}
> {"op":"create","path":"/f/a","document":$shard,"order":"C"}
> {"op":"create","path":"/f/b","document":$square_shard,"order":"C"}
> {"op":"create","path":"/f/e","document":$shard,"order":"C"}
> {"op":"create","path":"/f/i","document":$square_shard{"data_type":"uint16","codecs":[{"name":"sharding_indexed","configuration":{"chunk_shape":[2,2],"codecs":[{"name":"bytes","configuration":{"endian":"little"}}],"index_codecs":[{"name":"bytes","configuration":{"endian":"little"}}],"index_location":"start"}}]},"order":"C"}
> {"op":"create","path":"/f/n","document":$nested_shard,"order":"C"}
> {"op":"create","path":"/f/v","document":$shard{"shape":[6,6],"chunk_grid":{"name":"rectilinear","configuration":{"kind":"inline","chunk_shapes":[[4,4,4],[3,3,3]]}},"codecs":[{"name":"sharding_indexed","configuration":{"chunk_shape":[2,3],"codecs":["bytes"],"index_codecs":[{"name":"bytes","configuration":{"endian":"little"}}]}}]},"order":"C"}
> {"op":"create","path":"/f/z","document":$shard,"order":"C"}
> {"op":"write_chunk","path":"/f/a","chunk":[0],"cells":[1,2,3,4]}
> {"op":"write_chunk","path":"/f/b","chunk":[0,0],"cells":[9,0,5,6,0,0,7,8,0,0,0,0,0,0,0,0]}
> {"op":"write_chunk","path":"/f/e","chunk":[0],"cells":[0,0,0,0]}
> {"op":"write_chunk","path":"/f/i","chunk":[0,0],"cells":[0,1,100,101,4,5,102,103,8,9,10,11,12,13,14,15]}
> {"op":"write_chunk","path":"/f/n","chunk":[0,0],"cells":[1,2,0,0,0,0,0,0,9,10,0,0,11,12,0,0]}
> {"op":"write_chunk","path":"/f/v","chunk":[2,2],"cells":[1,2,3,4,5,6,7,8,9,10,11,12]}
> {"op":"write_chunk","path":"/f/z","chunk":[0],"cells":[0,0,3,4]}
< {"done":true}

after:
  a/c/0 = 0102 0304 0000000000000000 0200000000000000 0200000000000000 0200000000000000
  b/c/0/0 = 09000000 05060708 0000000000000000 0400000000000000 0400000000000000 0400000000000000 ffffffffffffffff ffffffffffffffff ffffffffffffffff ffffffffffffffff
  i/c/0/0 = 4000000000000000 0800000000000000 4800000000000000 0800000000000000 5000000000000000 0800000000000000 5800000000000000 0800000000000000 0000 0100 0400 0500  6400 6500 6600 6700  0800 0900 0c00 0d00  0a00 0b00 0e00 0f00
  n/c/0/0 = 0102 0000000000000000 0200000000000000 ffffffffffffffff ffffffffffffffff 090a 0b0c 0000000000000000 0200000000000000 0200000000000000 0200000000000000 0000000000000000 2200000000000000 ffffffffffffffff ffffffffffffffff 2200000000000000 2400000000000000 ffffffffffffffff ffffffffffffffff
  v/c/2/2 = 010203040506 0708090a0b0c 0000000000000000 0600000000000000 0600000000000000 0600000000000000
  z/c/0 = 0304 ffffffffffffffff ffffffffffffffff 0000000000000000 0200000000000000
  a/zarr.json = $stored_shard
  b/zarr.json = $stored_square_shard
  e/zarr.json = $stored_shard
  i/zarr.json = $stored_square_shard{"data_type":"uint16","codecs":[{"name":"sharding_indexed","configuration":{"chunk_shape":[2,2],"codecs":[{"name":"bytes","configuration":{"endian":"little"}}],"index_codecs":[{"name":"bytes","configuration":{"endian":"little"}}],"index_location":"start"}}]}
  n/zarr.json = $stored_nested_shard
  v/zarr.json = $stored_shard{"shape":[6,6],"chunk_grid":{"name":"rectilinear","configuration":{"kind":"inline","chunk_shapes":[[4,4,4],[3,3,3]]}},"codecs":[{"name":"sharding_indexed","configuration":{"chunk_shape":[2,3],"codecs":["bytes"],"index_codecs":[{"name":"bytes","configuration":{"endian":"little"}}]}}]}
  z/zarr.json = $stored_shard
  f/a/c/0 = 0102 0304 0000000000000000 0200000000000000 0200000000000000 0200000000000000
  f/b/c/0/0 = 09000000 05060708 0000000000000000 0400000000000000 0400000000000000 0400000000000000 ffffffffffffffff ffffffffffffffff ffffffffffffffff ffffffffffffffff
  f/i/c/0/0 = 4000000000000000 0800000000000000 4800000000000000 0800000000000000 5000000000000000 0800000000000000 5800000000000000 0800000000000000 0000 0100 0400 0500  6400 6500 6600 6700  0800 0900 0c00 0d00  0a00 0b00 0e00 0f00
  f/n/c/0/0 = 0102 0000000000000000 0200000000000000 ffffffffffffffff ffffffffffffffff 090a 0b0c 0000000000000000 0200000000000000 0200000000000000 0200000000000000 0000000000000000 2200000000000000 ffffffffffffffff ffffffffffffffff 2200000000000000 2400000000000000 ffffffffffffffff ffffffffffffffff
  f/v/c/2/2 = 010203040506 0708090a0b0c 0000000000000000 0600000000000000 0600000000000000 0600000000000000
  f/z/c/0 = 0304 ffffffffffffffff ffffffffffffffff 0000000000000000 0200000000000000
  f/a/zarr.json = $stored_shard
  f/b/zarr.json = $stored_square_shard
  f/e/zarr.json = $stored_shard
  f/i/zarr.json = $stored_square_shard{"data_type":"uint16","codecs":[{"name":"sharding_indexed","configuration":{"chunk_shape":[2,2],"codecs":[{"name":"bytes","configuration":{"endian":"little"}}],"index_codecs":[{"name":"bytes","configuration":{"endian":"little"}}],"index_location":"start"}}]}
  f/n/zarr.json = $stored_nested_shard
  f/v/zarr.json = $stored_shard{"shape":[6,6],"chunk_grid":{"name":"rectilinear","configuration":{"kind":"inline","chunk_shapes":[[4,4,4],[3,3,3]]}},"codecs":[{"name":"sharding_indexed","configuration":{"chunk_shape":[2,3],"codecs":["bytes"],"index_codecs":[{"name":"bytes","configuration":{"endian":"little"}}]}}]}
  f/z/zarr.json = $stored_shard

# Once more: no key and no byte changes.
> {"op":"reopen","path":"/a","order":"C"}
> {"op":"reopen","path":"/b","order":"C"}
> {"op":"reopen","path":"/e","order":"C"}
> {"op":"reopen","path":"/i","order":"C"}
> {"op":"reopen","path":"/n","order":"C"}
> {"op":"reopen","path":"/v","order":"C"}
> {"op":"reopen","path":"/z","order":"C"}
> {"op":"rewrite","path":"/a","options":{"partial":true}}
> {"op":"rewrite","path":"/b","options":{"partial":true}}
> {"op":"rewrite","path":"/e","options":{"partial":true}}
> {"op":"rewrite","path":"/i","options":{"partial":true}}
> {"op":"rewrite","path":"/n","options":{"partial":true}}
> {"op":"rewrite","path":"/v","options":{"partial":true}}
> {"op":"rewrite","path":"/z","options":{"partial":true}}
< {"done":true}
> {"op":"compact","path":"/a","chunk":[0]}
> {"op":"compact","path":"/b","chunk":[0,0]}
> {"op":"compact","path":"/e","chunk":[0]}
> {"op":"compact","path":"/i","chunk":[0,0]}
> {"op":"compact","path":"/n","chunk":[0,0]}
> {"op":"compact","path":"/v","chunk":[2,2]}
> {"op":"compact","path":"/z","chunk":[0]}
< {"compacted":false}

after: as before
