Where the store refuses to read a chunk, a read gives no cells, and a write has written the chunks before it.

# A create reads twice, for documents of both versions. The read of the box reads four chunks.
before:
  a/c/0/0 = 00 00 00 01
  a/c/1/1 = 04 00 00 00
  refuse read 6

> {"op":"create","path":"/a","document":$zeros}
< {"done":true}
> {"op":"read_box","path":"/a","box":[[1,3],[1,3]]}
< {"applied":0,"refused":"Store"}
> {"op":"read_box","path":"/a","box":[[1,3],[1,3]]}
< {"cells":[1,0,0,4]}

after:
  a/c/0/0 = 00 00 00 01
  a/c/1/1 = 04 00 00 00
  a/zarr.json = $stored

# A reopening reads once, and a write of a part of a chunk once.
before:
  refuse read 4

> {"op":"reopen","path":"/a"}
< {"done":true}
> {"op":"write_box","path":"/a","box":[[1,3],[1,3]],"cells":[5,6,7,8]}
< {"applied":2,"refused":"Store"}
> {"op":"read_box","path":"/a","box":[[1,3],[1,3]]}
< {"cells":[5,6,0,4]}

after:
  a/c/0/0 = 00 00 00 05
  a/c/0/1 = 00 00 06 00
  a/c/1/1 = 04 00 00 00
  a/zarr.json = $stored

# A whole chunk is written without a read, and chunks are erased without one.
before:
  refuse read 2

> {"op":"reopen","path":"/a"}
> {"op":"write_chunk","path":"/a","chunk":[1,1],"cells":[1,2,3,4]}
> {"op":"erase_chunks","path":"/a","box":[[0,1],[0,2]]}
< {"done":true}
> {"op":"read_chunk","path":"/a","chunk":[1,1]}
< {"applied":0,"refused":"Store"}
> {"op":"read_chunk","path":"/a","chunk":[1,1]}
< {"cells":[1,2,3,4]}

after:
  a/c/1/1 = 01 02 03 04
  a/zarr.json = $stored
