With the option for partial encoding, a chunk of which a part is written has a key afterwards, even if it is all fill. A chunk that is written whole has none then.

> {"op":"create","path":"/a","document":$zeros}
> {"op":"write_box","path":"/a","box":[[1,3],[1,3]],"cells":[1,2,3,4]}
> {"op":"write_box","path":"/a","box":[[1,3],[1,3]],"cells":[0,0,0,0],"options":{"partial":true}}
< {"done":true}

after:
  a/c/0/0 = 00 00 00 00
  a/c/0/1 = 00 00 00 00
  a/c/1/0 = 00 00 00 00
  a/c/1/1 = 00 00 00 00
  a/zarr.json = $stored

# A whole chunk; a part without the option; and a part of a chunk that has no key.
> {"op":"reopen","path":"/a"}
> {"op":"write_chunk","path":"/a","chunk":[0,0],"cells":[0,0,0,0],"options":{"partial":true}}
> {"op":"write_box","path":"/a","box":[[1,2],[2,3]],"cells":[0]}
> {"op":"erase_chunks","path":"/a","box":[[1,2],[0,1]]}
> {"op":"write_box","path":"/a","box":[[2,3],[0,1]],"cells":[0],"options":{"partial":true}}
< {"done":true}

after:
  a/c/1/0 = 00 00 00 00
  a/c/1/1 = 00 00 00 00
  a/zarr.json = $stored
