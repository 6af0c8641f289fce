An array of version 2 is written, in whole chunks and in parts, compacted, rewritten and erased as one of version 3 is, and another session opens it.

> {"op":"create","path":"/a","document":$version_2}
> {"op":"write_box","path":"/a","box":[[1,3],[1,3]],"cells":[1,2,3,4]}
< {"done":true}
> {"op":"read_box","path":"/a","box":[[0,4],[1,3]]}
< {"cells":[0,0,1,2,3,4,0,0]}
> {"op":"compact","path":"/a","chunk":[0,0]}
< {"compacted":false}
> {"op":"write_box","path":"/a","box":[[3,5],[0,1]],"cells":[1,2]}
< {"applied":0,"refused":"Region"}

after:
  a/.zarray = $zarray
  a/.zattrs = $zattrs
  a/0.0 = 00 00 00 01
  a/0.1 = 00 00 02 00
  a/1.0 = 00 03 00 00
  a/1.1 = 04 00 00 00

# Parts of zeros keep their chunks' keys, and a rewrite takes those away that are fill.
> {"op":"reopen","path":"/a"}
> {"op":"write_box","path":"/a","box":[[1,3],[1,2]],"cells":[0,0],"options":{"partial":true}}
< {"done":true}
> {"op":"read_box","path":"/a","box":[[0,4],[1,3]]}
< {"cells":[0,0,0,2,0,4,0,0]}

after:
  a/.zarray = $zarray
  a/.zattrs = $zattrs
  a/0.0 = 00 00 00 00
  a/0.1 = 00 00 02 00
  a/1.0 = 00 00 00 00
  a/1.1 = 04 00 00 00

> {"op":"reopen","path":"/a"}
> {"op":"rewrite","path":"/a"}
< {"done":true}

after:
  a/.zarray = $zarray
  a/.zattrs = $zattrs
  a/0.1 = 00 00 02 00
  a/1.1 = 04 00 00 00

> {"op":"reopen","path":"/a"}
> {"op":"erase_chunks","path":"/a","box":[[0,2],[1,2]]}
> {"op":"write_chunk","path":"/a","chunk":[1,0],"cells":[0,0,0,0],"options":{"empty":true}}
< {"done":true}
> {"op":"read_box","path":"/a","box":[[0,2],[0,4]]}
< {"cells":[0,0,0,0,0,0,0,0]}

after:
  a/.zarray = $zarray
  a/.zattrs = $zattrs
  a/1.0 = 00 00 00 00
