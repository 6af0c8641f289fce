A shard is written in one call, its index with it: where that is refused the shards before it are written, and the others are as they were.

# A create writes once.
before:
  refuse write 3

> {"op":"create","path":"/a","document":$shard{"shape":[8]},"order":"C"}
< {"done":true}
> {"op":"write_box","path":"/a","box":[[2,6]],"cells":[1,2,3,4]}
< {"applied":1,"refused":"Store"}
> {"op":"read_box","path":"/a","box":[[0,8]]}
< {"cells":[0,0,1,2,0,0,0,0]}
> {"op":"write_box","path":"/a","box":[[2,6]],"cells":[1,2,3,4]}
< {"done":true}

after:
  a/c/0 = 0102 ffffffffffffffff ffffffffffffffff 0000000000000000 0200000000000000
  a/c/1 = 0304 0000000000000000 0200000000000000 ffffffffffffffff ffffffffffffffff
  a/zarr.json = $stored_shard{"shape":[8]}

# So is a shard that is rewritten. Each has a gap before, and the second of three calls is refused.
before:
  a/c/0 = 63 0102 0100000000000000 0200000000000000 ffffffffffffffff ffffffffffffffff
  a/c/1 = 63 0304 0100000000000000 0200000000000000 ffffffffffffffff ffffffffffffffff
  a/c/2 = 63 0506 0100000000000000 0200000000000000 ffffffffffffffff ffffffffffffffff
  a/zarr.json = $stored_shard{"shape":[12]}
  refuse write 2

> {"op":"reopen","path":"/a","order":"C"}
< {"done":true}
> {"op":"rewrite","path":"/a"}
< {"applied":1,"refused":"Store"}

after:
  a/c/0 = 0102 0000000000000000 0200000000000000 ffffffffffffffff ffffffffffffffff
  a/c/1 = 63 0304 0100000000000000 0200000000000000 ffffffffffffffff ffffffffffffffff
  a/c/2 = 63 0506 0100000000000000 0200000000000000 ffffffffffffffff ffffffffffffffff
  a/zarr.json = $stored_shard{"shape":[12]}
