Where the store refuses a call of a rewrite, the chunks before it are stored anew, and the answer says how many of those had a key.

> {"op":"create","path":"/a","document":$zeros}
> {"op":"write_box","path":"/a","box":[[1,3],[1,3]],"cells":[1,2,3,4]}
> {"op":"write_box","path":"/a","box":[[1,3],[1,3]],"cells":[0,0,0,0],"options":{"partial":true}}
> {"op":"erase_chunks","path":"/a","box":[[0,1],[0,1]]}
< {"done":true}

after:
  a/c/0/1 = 00 00 00 00
  a/c/1/0 = 00 00 00 00
  a/c/1/1 = 00 00 00 00
  a/zarr.json = $stored

# The second of three erasures.
before:
  refuse write 2

> {"op":"reopen","path":"/a"}
< {"done":true}
> {"op":"rewrite","path":"/a"}
< {"applied":1,"refused":"Store"}

after:
  a/c/1/0 = 00 00 00 00
  a/c/1/1 = 00 00 00 00
  a/zarr.json = $stored

# A reopening reads once, and a rewrite once for each chunk: the fourth has a key, and the third one before it.
before:
  refuse read 5

> {"op":"reopen","path":"/a"}
< {"done":true}
> {"op":"rewrite","path":"/a"}
< {"applied":1,"refused":"Store"}
> {"op":"rewrite","path":"/a","options":{"empty":true}}
< {"done":true}

after:
  a/c/1/1 = 00 00 00 00
  a/zarr.json = $stored

> {"op":"reopen","path":"/a"}
> {"op":"rewrite","path":"/a"}
< {"done":true}

after:
  a/zarr.json = $stored

# It reads for chunks without a key as well.
before:
  refuse read 3

> {"op":"reopen","path":"/a"}
< {"done":true}
> {"op":"rewrite","path":"/a"}
< {"applied":0,"refused":"Store"}

after: as before
