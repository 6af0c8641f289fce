With the option for partial encoding, what is appended to a shard and its new index are written in one call. Where that is refused nothing has changed.

# A create writes once, and the first part once for each of two shards.
before:
  refuse write 4

> {"op":"create","path":"/a","document":$shard{"shape":[8]},"order":"C"}
> {"op":"write_box","path":"/a","box":[[2,6]],"cells":[1,2,3,4],"options":{"partial":true}}
< {"done":true}
> {"op":"write_box","path":"/a","box":[[3,5]],"cells":[5,6],"options":{"partial":true}}
< {"applied":0,"refused":"Store"}
> {"op":"read_box","path":"/a","box":[[0,8]]}
< {"cells":[0,0,1,2,3,4,0,0]}

after:
  a/c/0 = 0102 ffffffffffffffff ffffffffffffffff 0000000000000000 0200000000000000
  a/c/1 = 0304 0000000000000000 0200000000000000 ffffffffffffffff ffffffffffffffff
  a/zarr.json = $stored_shard{"shape":[8]}

before:
  refuse write 2

> {"op":"reopen","path":"/a","order":"C"}
< {"done":true}
> {"op":"write_box","path":"/a","box":[[3,5]],"cells":[5,6],"options":{"partial":true}}
< {"applied":1,"refused":"Store"}
> {"op":"read_box","path":"/a","box":[[0,8]]}
< {"cells":[0,0,1,5,3,4,0,0]}

after:
  a/c/0 = 0102 0105 ffffffffffffffff ffffffffffffffff 0200000000000000 0200000000000000
  a/c/1 = 0304 0000000000000000 0200000000000000 ffffffffffffffff ffffffffffffffff
  a/zarr.json = $stored_shard{"shape":[8]}

# The erasure of a shard that becomes all fill.
before:
  refuse write 1

> {"op":"reopen","path":"/a","order":"C"}
< {"done":true}
> {"op":"write_box","path":"/a","box":[[2,4]],"cells":[0,0],"options":{"partial":true}}
< {"applied":0,"refused":"Store"}
> {"op":"write_box","path":"/a","box":[[2,6]],"cells":[0,0,6,4],"options":{"partial":true}}
< {"done":true}

after:
  a/c/1 = 0304 0604 0200000000000000 0200000000000000 ffffffffffffffff ffffffffffffffff
  a/zarr.json = $stored_shard{"shape":[8]}

# It reads what it needs before it writes.
before:
  refuse read 2

> {"op":"reopen","path":"/a","order":"C"}
< {"done":true}
> {"op":"write_box","path":"/a","box":[[5,6]],"cells":[8],"options":{"partial":true}}
< {"applied":0,"refused":"Store"}

after: as before
