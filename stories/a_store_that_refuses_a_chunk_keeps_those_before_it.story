Where the store refuses to write a chunk, the chunks before it are written, and the answer says how many.

# The document is the first write, and the third chunk the fourth.
before:
  refuse write 4

> {"op":"create","path":"/a","document":$zeros}
< {"done":true}
> {"op":"write_box","path":"/a","box":[[1,3],[1,3]],"cells":[1,2,3,4]}
< {"applied":2,"refused":"Store"}
> {"op":"read_box","path":"/a","box":[[1,3],[1,3]]}
< {"cells":[1,2,0,0]}

after:
  a/c/0/0 = 00 00 00 01
  a/c/0/1 = 00 00 02 00
  a/zarr.json = $stored

# The third erasure.
before:
  a/c/1/0 = 00 03 00 00
  a/c/1/1 = 04 00 00 00
  refuse write 3

> {"op":"reopen","path":"/a"}
< {"done":true}
> {"op":"erase_chunks","path":"/a","box":[[0,2],[0,2]]}
< {"applied":2,"refused":"Store"}
> {"op":"read_box","path":"/a","box":[[1,3],[1,3]]}
< {"cells":[0,0,3,4]}

after:
  a/c/1/0 = 00 03 00 00
  a/c/1/1 = 04 00 00 00
  a/zarr.json = $stored

# The first chunk is all fill then, so that its key would go; and then it is accepted.
before:
  refuse write 1

> {"op":"reopen","path":"/a"}
< {"done":true}
> {"op":"write_box","path":"/a","box":[[2,4],[0,4]],"cells":[0,0,0,0,0,0,0,0]}
< {"applied":0,"refused":"Store"}
> {"op":"read_box","path":"/a","box":[[2,4],[0,4]]}
< {"cells":[0,3,4,0,0,0,0,0]}
> {"op":"write_box","path":"/a","box":[[2,4],[0,4]],"cells":[0,0,0,0,0,0,0,0]}
< {"done":true}

after:
  a/zarr.json = $stored
