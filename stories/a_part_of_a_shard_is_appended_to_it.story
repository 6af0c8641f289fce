With the option for partial encoding, the subchunks that a part of a shard meets are appended to the shard's data, and a new index says where they stand. What they stood as before is a gap.

> {"op":"create","path":"/s","document":$square_shard,"order":"C"}
> {"op":"write_box","path":"/s","box":[[0,2],[2,4]],"cells":[5,6,7,8]}
< {"done":true}

after:
  s/c/0/0 = 05060708 ffffffffffffffff ffffffffffffffff 0000000000000000 0400000000000000 ffffffffffffffff ffffffffffffffff ffffffffffffffff ffffffffffffffff
  s/zarr.json = $stored_square_shard

# A subchunk that had no slice: there is no gap.
> {"op":"reopen","path":"/s","order":"C"}
> {"op":"write_box","path":"/s","box":[[0,1],[0,1]],"cells":[9],"options":{"partial":true}}
< {"done":true}
> {"op":"read_box","path":"/s","box":[[0,2],[0,4]]}
< {"cells":[9,0,5,6,0,0,7,8]}
> {"op":"compact","path":"/s","chunk":[0,0]}
< {"compacted":false}

after:
  s/c/0/0 = 05060708 09000000 0400000000000000 0400000000000000 0000000000000000 0400000000000000 ffffffffffffffff ffffffffffffffff ffffffffffffffff ffffffffffffffff
  s/zarr.json = $stored_square_shard

# A rewrite puts them in their order, as a chunk has them that is written whole.
> {"op":"reopen","path":"/s","order":"C"}
> {"op":"rewrite","path":"/s"}
> {"op":"create","path":"/f","document":$square_shard,"order":"C"}
> {"op":"write_chunk","path":"/f","chunk":[0,0],"cells":[9,0,5,6,0,0,7,8,0,0,0,0,0,0,0,0]}
< {"done":true}

after:
  f/c/0/0 = 09000000 05060708 0000000000000000 0400000000000000 0400000000000000 0400000000000000 ffffffffffffffff ffffffffffffffff ffffffffffffffff ffffffffffffffff
  f/zarr.json = $stored_square_shard
  s/c/0/0 = 09000000 05060708 0000000000000000 0400000000000000 0400000000000000 0400000000000000 ffffffffffffffff ffffffffffffffff ffffffffffffffff ffffffffffffffff
  s/zarr.json = $stored_square_shard

# A box that meets all four subchunks: those that aren't fill then are appended in their order. Both slices from before are gaps.
> {"op":"reopen","path":"/s","order":"C"}
> {"op":"write_box","path":"/s","box":[[0,3],[1,3]],"cells":[1,0,2,0,0,3],"options":{"partial":true}}
< {"done":true}
> {"op":"read_chunk","path":"/s","chunk":[0,0]}
< {"cells":[9,1,0,6,0,2,0,8,0,0,3,0,0,0,0,0]}

after:
  f/c/0/0 = 09000000 05060708 0000000000000000 0400000000000000 0400000000000000 0400000000000000 ffffffffffffffff ffffffffffffffff ffffffffffffffff ffffffffffffffff
  f/zarr.json = $stored_square_shard
  s/c/0/0 = 09000000 05060708 09010002 00060008 03000000 0800000000000000 0400000000000000 0c00000000000000 0400000000000000 ffffffffffffffff ffffffffffffffff 1000000000000000 0400000000000000
  s/zarr.json = $stored_square_shard

# A subchunk that becomes fill, and another one: that one alone is appended.
> {"op":"reopen","path":"/s","order":"C"}
> {"op":"write_box","path":"/s","box":[[0,2],[0,3]],"cells":[0,0,4,0,0,0],"options":{"partial":true}}
< {"done":true}
> {"op":"read_chunk","path":"/s","chunk":[0,0]}
< {"cells":[0,0,4,6,0,0,0,8,0,0,3,0,0,0,0,0]}

after:
  f/c/0/0 = 09000000 05060708 0000000000000000 0400000000000000 0400000000000000 0400000000000000 ffffffffffffffff ffffffffffffffff ffffffffffffffff ffffffffffffffff
  f/zarr.json = $stored_square_shard
  s/c/0/0 = 09000000 05060708 09010002 00060008 03000000 04060008 ffffffffffffffff ffffffffffffffff 1400000000000000 0400000000000000 ffffffffffffffff ffffffffffffffff 1000000000000000 0400000000000000
  s/zarr.json = $stored_square_shard

> {"op":"reopen","path":"/s","order":"C"}
< {"done":true}
> {"op":"compact","path":"/s","chunk":[0,0]}
< {"compacted":true}
> {"op":"compact","path":"/s","chunk":[0,0]}
< {"compacted":false}
> {"op":"read_chunk","path":"/s","chunk":[0,0]}
< {"cells":[0,0,4,6,0,0,0,8,0,0,3,0,0,0,0,0]}

after:
  f/c/0/0 = 09000000 05060708 0000000000000000 0400000000000000 0400000000000000 0400000000000000 ffffffffffffffff ffffffffffffffff ffffffffffffffff ffffffffffffffff
  f/zarr.json = $stored_square_shard
  s/c/0/0 = 04060008 03000000 ffffffffffffffff ffffffffffffffff 0000000000000000 0400000000000000 ffffffffffffffff ffffffffffffffff 0400000000000000 0400000000000000
  s/zarr.json = $stored_square_shard
