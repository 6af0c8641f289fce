Where the index stands at the start, the subchunks that a part meets are appended all the same, behind the others, and the index is written over.

> {"op":"create","path":"/a","document":$square_shard{"data_type":"uint16","codecs":[{"name":"sharding_indexed","configuration":{"chunk_shape":[2,2],"codecs":[{"name":"bytes","configuration":{"endian":"little"}}],"index_codecs":[{"name":"bytes","configuration":{"endian":"little"}}],"index_location":"start"}}]},"order":"C"}
> {"op":"write_box","path":"/a","box":[[0,4],[0,4]],"cells":[0,1,2,3,4,5,6,7,8,9,10,11,12,13,14,15]}
> {"op":"write_box","path":"/a","box":[[0,2],[2,4]],"cells":[100,101,102,103],"options":{"partial":true}}
< {"done":true}
> {"op":"read_box","path":"/a","box":[[1,3],[1,3]]}
< {"cells":[5,102,9,10]}

after:
  a/c/0/0 = 4000000000000000 0800000000000000 6000000000000000 0800000000000000 5000000000000000 0800000000000000 5800000000000000 0800000000000000 0000 0100 0400 0500  0200 0300 0600 0700  0800 0900 0c00 0d00  0a00 0b00 0e00 0f00  6400 6500 6600 6700
  a/zarr.json = $stored_square_shard{"data_type":"uint16","codecs":[{"name":"sharding_indexed","configuration":{"chunk_shape":[2,2],"codecs":[{"name":"bytes","configuration":{"endian":"little"}}],"index_codecs":[{"name":"bytes","configuration":{"endian":"little"}}],"index_location":"start"}}]}

> {"op":"reopen","path":"/a","order":"C"}
< {"done":true}
> {"op":"compact","path":"/a","chunk":[0,0]}
< {"compacted":true}
> {"op":"read_chunk","path":"/a","chunk":[0,0]}
< {"cells":[0,1,100,101,4,5,102,103,8,9,10,11,12,13,14,15]}

after:
  a/c/0/0 = 4000000000000000 0800000000000000 4800000000000000 0800000000000000 5000000000000000 0800000000000000 5800000000000000 0800000000000000 0000 0100 0400 0500  6400 6500 6600 6700  0800 0900 0c00 0d00  0a00 0b00 0e00 0f00
  a/zarr.json = $stored_square_shard{"data_type":"uint16","codecs":[{"name":"sharding_indexed","configuration":{"chunk_shape":[2,2],"codecs":[{"name":"bytes","configuration":{"endian":"little"}}],"index_codecs":[{"name":"bytes","configuration":{"endian":"little"}}],"index_location":"start"}}]}

> {"op":"reopen","path":"/a","order":"C"}
> {"op":"rewrite","path":"/a"}
< {"done":true}

after: as before

# Where nothing was stored, the index stands before what is appended; a subchunk that becomes fill has no slice.
> {"op":"reopen","path":"/a","order":"C"}
> {"op":"erase_chunks","path":"/a","box":[[0,1],[0,1]]}
> {"op":"write_box","path":"/a","box":[[2,4],[1,3]],"cells":[1,2,3,0],"options":{"partial":true}}
> {"op":"write_box","path":"/a","box":[[2,4],[1,2]],"cells":[0,0],"options":{"partial":true}}
< {"done":true}

after:
  a/c/0/0 = ffffffffffffffff ffffffffffffffff ffffffffffffffff ffffffffffffffff ffffffffffffffff ffffffffffffffff 4800000000000000 0800000000000000 0000 0100 0000 0300  0200 0000 0000 0000
  a/zarr.json = $stored_square_shard{"data_type":"uint16","codecs":[{"name":"sharding_indexed","configuration":{"chunk_shape":[2,2],"codecs":[{"name":"bytes","configuration":{"endian":"little"}}],"index_codecs":[{"name":"bytes","configuration":{"endian":"little"}}],"index_location":"start"}}]}
