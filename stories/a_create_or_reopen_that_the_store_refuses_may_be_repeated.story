Where the store refuses a call of a create or a reopening, no array is held, and the same command is done afterwards.

# A create reads for a document of version 3, then for one of version 2, and then writes.
before:
  refuse read 1

> {"op":"create","path":"/a","document":$zeros}
< {"applied":0,"refused":"Store"}
> {"op":"read_box","path":"/a","box":[[0,1],[0,1]]}
< {"applied":0,"refused":"NoArray"}
> {"op":"create","path":"/a","document":$zeros}
< {"done":true}
> {"op":"read_box","path":"/a","box":[[0,1],[0,1]]}
< {"cells":[0]}

after:
  a/zarr.json = $stored

before:
  refuse read 2

> {"op":"create","path":"/b","document":$zeros}
< {"applied":0,"refused":"Store"}
> {"op":"create","path":"/b/c","document":$zeros}
< {"done":true}

after:
  a/zarr.json = $stored
  b/c/zarr.json = $stored

before:
  refuse write 1

> {"op":"create","path":"/d","document":$zeros}
< {"applied":0,"refused":"Store"}
> {"op":"reopen","path":"/d"}
< {"applied":0,"refused":"NoArray"}
> {"op":"create","path":"/d","document":$zeros}
< {"done":true}

after:
  a/zarr.json = $stored
  b/c/zarr.json = $stored
  d/zarr.json = $stored

# The path and the document are looked at before the store.
before:
  refuse read 1

> {"op":"create","path":"/e/","document":$zeros}
> {"op":"reopen","path":"a"}
< {"applied":0,"refused":"Path"}
> {"op":"create","path":"/e","document":{}}
< {"applied":0,"refused":"Document"}
> {"op":"reopen","path":"/a"}
< {"applied":0,"refused":"Store"}
> {"op":"read_box","path":"/a","box":[[0,1],[0,1]]}
< {"applied":0,"refused":"NoArray"}
> {"op":"reopen","path":"/a"}
< {"done":true}

after: as before

# A held array stays held.
before:
  refuse read 2

> {"op":"reopen","path":"/a"}
< {"done":true}
> {"op":"reopen","path":"/a","order":"C"}
< {"applied":0,"refused":"Store"}
> {"op":"write_chunk","path":"/a","chunk":[0,0],"cells":[1,2,3,4]}
> {"op":"reopen","path":"/a","order":"C"}
< {"done":true}

after:
  a/c/0/0 = 01 02 03 04
  a/zarr.json = $stored
  b/c/zarr.json = $stored
  d/zarr.json = $stored
