No command touches a key that is not its array's own: those of another array, of a text, and of chunks without a document.

before:
  README.txt = "text"
  a/README.txt = "text"
  a/c = "text"
  a/c/0 = 01 02 03 04
  a/c/0/0/0 = 01 02 03 04
  a/c/0/2 = 01 02 03 04
  a/c/2/0 = 01 02 03
  ab/c/0/0 = 01 02 03 04
  b/c/0/0 = 01 02 03 04
  b/c/1/1 =
  b/zarr.json = $stored
  c/0/0 = 01 02 03 04
  d/c/0/0 = 01 02 03 04

> {"op":"create","path":"/a","document":$zeros}
< {"done":true}

after:
  README.txt = "text"
  a/README.txt = "text"
  a/c = "text"
  a/c/0 = 01 02 03 04
  a/c/0/0/0 = 01 02 03 04
  a/c/0/2 = 01 02 03 04
  a/c/2/0 = 01 02 03
  a/zarr.json = $stored
  ab/c/0/0 = 01 02 03 04
  b/c/0/0 = 01 02 03 04
  b/c/1/1 =
  b/zarr.json = $stored
  c/0/0 = 01 02 03 04
  d/c/0/0 = 01 02 03 04

> {"op":"reopen","path":"/a"}
< {"done":true}

after: as before

> {"op":"reopen","path":"/a"}
> {"op":"write_box","path":"/a","box":[[0,3],[1,4]],"cells":[1,2,3,4,5,6,7,8,9]}
< {"done":true}

after:
  README.txt = "text"
  a/README.txt = "text"
  a/c = "text"
  a/c/0 = 01 02 03 04
  a/c/0/0 = 00 01 00 04
  a/c/0/0/0 = 01 02 03 04
  a/c/0/1 = 02 03 05 06
  a/c/0/2 = 01 02 03 04
  a/c/1/0 = 00 07 00 00
  a/c/1/1 = 08 09 00 00
  a/c/2/0 = 01 02 03
  a/zarr.json = $stored
  ab/c/0/0 = 01 02 03 04
  b/c/0/0 = 01 02 03 04
  b/c/1/1 =
  b/zarr.json = $stored
  c/0/0 = 01 02 03 04
  d/c/0/0 = 01 02 03 04

> {"op":"reopen","path":"/a"}
< {"done":true}
> {"op":"read_box","path":"/a","box":[[0,4],[0,4]]}
< {"cells":[0,1,2,3,0,4,5,6,0,7,8,9,0,0,0,0]}

after: as before

> {"op":"reopen","path":"/a"}
> {"op":"write_chunk","path":"/a","chunk":[1,0],"cells":[11,12,13,14]}
< {"done":true}

after:
  README.txt = "text"
  a/README.txt = "text"
  a/c = "text"
  a/c/0 = 01 02 03 04
  a/c/0/0 = 00 01 00 04
  a/c/0/0/0 = 01 02 03 04
  a/c/0/1 = 02 03 05 06
  a/c/0/2 = 01 02 03 04
  a/c/1/0 = 0b 0c 0d 0e
  a/c/1/1 = 08 09 00 00
  a/c/2/0 = 01 02 03
  a/zarr.json = $stored
  ab/c/0/0 = 01 02 03 04
  b/c/0/0 = 01 02 03 04
  b/c/1/1 =
  b/zarr.json = $stored
  c/0/0 = 01 02 03 04
  d/c/0/0 = 01 02 03 04

> {"op":"reopen","path":"/a"}
< {"done":true}
> {"op":"read_chunk","path":"/a","chunk":[1,0]}
< {"cells":[11,12,13,14]}

after: as before

> {"op":"reopen","path":"/a"}
> {"op":"erase_chunks","path":"/a","box":[[0,2],[0,2]]}
< {"done":true}

after:
  README.txt = "text"
  a/README.txt = "text"
  a/c = "text"
  a/c/0 = 01 02 03 04
  a/c/0/0/0 = 01 02 03 04
  a/c/0/2 = 01 02 03 04
  a/c/2/0 = 01 02 03
  a/zarr.json = $stored
  ab/c/0/0 = 01 02 03 04
  b/c/0/0 = 01 02 03 04
  b/c/1/1 =
  b/zarr.json = $stored
  c/0/0 = 01 02 03 04
  d/c/0/0 = 01 02 03 04
