A chunk with a value of a wrong length isn't read; it is written whole or erased, and other chunks are read.

before:
  a/c/0/1 = 01 02 03
  b/c/0/1 = 01 02 03

> {"op":"create","path":"/a","document":$zeros}
> {"op":"create","path":"/b","document":$zeros}
< {"done":true}
> {"op":"read_chunk","path":"/a","chunk":[0,1]}
> {"op":"read_box","path":"/a","box":[[0,2],[1,3]]}
< {"applied":0,"refused":"Damage"}
> {"op":"read_box","path":"/a","box":[[0,1],[0,2]]}
< {"cells":[0,0]}
> {"op":"write_chunk","path":"/a","chunk":[0,1],"cells":[5,6,7,8]}
< {"done":true}
> {"op":"read_chunk","path":"/a","chunk":[0,1]}
< {"cells":[5,6,7,8]}
> {"op":"erase_chunks","path":"/b","box":[[0,2],[0,2]]}
< {"done":true}

after:
  a/c/0/1 = 05 06 07 08
  a/zarr.json = $stored
  b/zarr.json = $stored
