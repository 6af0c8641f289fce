Erased chunks have no key and are all fill, and the others are as they were.

> {"op":"create","path":"/a","document":$zeros}
> {"op":"write_box","path":"/a","box":[[1,3],[1,3]],"cells":[1,2,3,4]}
# A box of no chunk.
> {"op":"erase_chunks","path":"/a","box":[[0,2],[1,1]]}
> {"op":"erase_chunks","path":"/a","box":[[0,1],[0,2]]}
< {"done":true}
> {"op":"read_box","path":"/a","box":[[0,4],[0,4]]}
< {"cells":[0,0,0,0,0,0,0,0,0,3,4,0,0,0,0,0]}
# Chunks without a key.
> {"op":"erase_chunks","path":"/a","box":[[0,1],[0,2]]}
< {"done":true}

after:
  a/c/1/0 = 00 03 00 00
  a/c/1/1 = 04 00 00 00
  a/zarr.json = $stored
