An inner shard of which a part is written is encoded anew and whole, and appended to the outer shard: nothing is appended in it.

> {"op":"create","path":"/n","document":$nested_shard,"order":"C"}
> {"op":"write_box","path":"/n","box":[[0,1],[0,2]],"cells":[1,2],"options":{"partial":true}}
< {"done":true}

after:
  n/c/0/0 = 0102 0000000000000000 0200000000000000 ffffffffffffffff ffffffffffffffff 0000000000000000 2200000000000000 ffffffffffffffff ffffffffffffffff ffffffffffffffff ffffffffffffffff ffffffffffffffff ffffffffffffffff
  n/zarr.json = $stored_nested_shard

# The other row of the inner shard: its old slice, 34 bytes, is a gap then.
> {"op":"reopen","path":"/n","order":"C"}
> {"op":"write_box","path":"/n","box":[[1,2],[0,1]],"cells":[3],"options":{"partial":true}}
< {"done":true}
> {"op":"read_box","path":"/n","box":[[0,2],[0,3]]}
< {"cells":[1,2,0,3,0,0]}

after:
  n/c/0/0 = 0102 0000000000000000 0200000000000000 ffffffffffffffff ffffffffffffffff 0102 0300 0000000000000000 0200000000000000 0200000000000000 0200000000000000 2200000000000000 2400000000000000 ffffffffffffffff ffffffffffffffff ffffffffffffffff ffffffffffffffff ffffffffffffffff ffffffffffffffff
  n/zarr.json = $stored_nested_shard

> {"op":"reopen","path":"/n","order":"C"}
< {"done":true}
> {"op":"compact","path":"/n","chunk":[0,0]}
< {"compacted":true}
> {"op":"compact","path":"/n","chunk":[0,0]}
< {"compacted":false}

after:
  n/c/0/0 = 0102 0300 0000000000000000 0200000000000000 0200000000000000 0200000000000000 0000000000000000 2400000000000000 ffffffffffffffff ffffffffffffffff ffffffffffffffff ffffffffffffffff ffffffffffffffff ffffffffffffffff
  n/zarr.json = $stored_nested_shard

# A part of two inner shards, both appended, one of them new; then all of one inner shard, which becomes fill: nothing is appended, and its old slices are gaps.
> {"op":"reopen","path":"/n","order":"C"}
> {"op":"write_box","path":"/n","box":[[1,2],[1,3]],"cells":[4,5],"options":{"partial":true}}
< {"done":true}
> {"op":"read_box","path":"/n","box":[[0,2],[0,4]]}
< {"cells":[1,2,0,0,3,4,5,0]}

after:
  n/c/0/0 = 0102 0300 0000000000000000 0200000000000000 0200000000000000 0200000000000000 0102 0304 0000000000000000 0200000000000000 0200000000000000 0200000000000000 0500 ffffffffffffffff ffffffffffffffff 0000000000000000 0200000000000000 2400000000000000 2400000000000000 4800000000000000 2200000000000000 ffffffffffffffff ffffffffffffffff ffffffffffffffff ffffffffffffffff
  n/zarr.json = $stored_nested_shard

> {"op":"reopen","path":"/n","order":"C"}
> {"op":"write_box","path":"/n","box":[[0,2],[0,2]],"cells":[0,0,0,0],"options":{"partial":true}}
< {"done":true}

after:
  n/c/0/0 = 0102 0300 0000000000000000 0200000000000000 0200000000000000 0200000000000000 0102 0304 0000000000000000 0200000000000000 0200000000000000 0200000000000000 0500 ffffffffffffffff ffffffffffffffff 0000000000000000 0200000000000000 ffffffffffffffff ffffffffffffffff 4800000000000000 2200000000000000 ffffffffffffffff ffffffffffffffff ffffffffffffffff ffffffffffffffff
  n/zarr.json = $stored_nested_shard

> {"op":"reopen","path":"/n","order":"C"}
> {"op":"rewrite","path":"/n"}
> {"op":"create","path":"/f","document":$nested_shard,"order":"C"}
> {"op":"write_chunk","path":"/f","chunk":[0,0],"cells":[0,0,0,0,0,0,5,0,0,0,0,0,0,0,0,0]}
< {"done":true}

after:
  f/c/0/0 = 0500 ffffffffffffffff ffffffffffffffff 0000000000000000 0200000000000000 ffffffffffffffff ffffffffffffffff 0000000000000000 2200000000000000 ffffffffffffffff ffffffffffffffff ffffffffffffffff ffffffffffffffff
  f/zarr.json = $stored_nested_shard
  n/c/0/0 = 0500 ffffffffffffffff ffffffffffffffff 0000000000000000 0200000000000000 ffffffffffffffff ffffffffffffffff 0000000000000000 2200000000000000 ffffffffffffffff ffffffffffffffff ffffffffffffffff ffffffffffffffff
  n/zarr.json = $stored_nested_shard

# The last cell that isn't fill: no inner shard is left, and no key.
> {"op":"reopen","path":"/n","order":"C"}
> {"op":"write_box","path":"/n","box":[[1,2],[2,3]],"cells":[0],"options":{"partial":true,"empty":true}}
< {"done":true}
> {"op":"read_box","path":"/n","box":[[0,2],[0,4]]}
< {"cells":[0,0,0,0,0,0,0,0]}

after:
  f/c/0/0 = 0500 ffffffffffffffff ffffffffffffffff 0000000000000000 0200000000000000 ffffffffffffffff ffffffffffffffff 0000000000000000 2200000000000000 ffffffffffffffff ffffffffffffffff ffffffffffffffff ffffffffffffffff
  f/zarr.json = $stored_nested_shard
  n/zarr.json = $stored_nested_shard
