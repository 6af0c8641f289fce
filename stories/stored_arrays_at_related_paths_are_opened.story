Arrays that are stored at related paths are all opened, and no array is created among them.

before:
  a/b/c/0/0 = 05 06 07 08
  a/b/zarr.json = $zeros
  a/c/0/0 = 01 02 03 04
  a/zarr.json = $zeros

> {"op":"reopen","path":"/a","order":"C"}
> {"op":"reopen","path":"/a/b","order":"C"}
> {"op":"reopen","path":"/a","order":"C"}
< {"done":true}
> {"op":"read_chunk","path":"/a","chunk":[0,0]}
< {"cells":[1,2,3,4]}
> {"op":"read_chunk","path":"/a/b","chunk":[0,0]}
< {"cells":[5,6,7,8]}
> {"op":"create","path":"/a/b/d","document":$zeros}
> {"op":"create","path":"/a/c","document":$zeros}
> {"op":"create","path":"/","document":$zeros}
< {"applied":0,"refused":"PathTaken"}

after: as before
