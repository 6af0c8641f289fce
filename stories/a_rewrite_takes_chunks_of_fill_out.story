A rewrite stores each chunk anew that has a key: one that is all fill loses it, unless empty chunks are stored.

> {"op":"create","path":"/a","document":$zeros}
> {"op":"write_box","path":"/a","box":[[1,3],[1,3]],"cells":[1,2,3,4]}
> {"op":"write_box","path":"/a","box":[[1,3],[1,3]],"cells":[0,0,0,0],"options":{"partial":true}}
# With the option for empty chunks; a chunk that is written in part is stored whole all the same.
> {"op":"rewrite","path":"/a","options":{"empty":true}}
< {"done":true}

after:
  a/c/0/0 = 00 00 00 00
  a/c/0/1 = 00 00 00 00
  a/c/1/0 = 00 00 00 00
  a/c/1/1 = 00 00 00 00
  a/zarr.json = $stored

> {"op":"reopen","path":"/a"}
> {"op":"rewrite","path":"/a"}
< {"done":true}
> {"op":"read_box","path":"/a","box":[[0,4],[0,4]]}
< {"cells":[0,0,0,0,0,0,0,0,0,0,0,0,0,0,0,0]}

after:
  a/zarr.json = $stored

# Once more, where no chunk has a key: none gets one.
> {"op":"reopen","path":"/a"}
> {"op":"rewrite","path":"/a","options":{"partial":true,"empty":true,"workers":true}}
< {"done":true}

after:
  a/zarr.json = $stored
