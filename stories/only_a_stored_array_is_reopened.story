A path is reopened only where its own document is stored.

before:
  a/.zarray = $zeros
  a/b/zarr.json = $zeros
  a/c/0/0 = 01 02 03 04
  ab/zarr.json = $zeros

# A document of version 3 under the name of one of version 2.
> {"op":"reopen","path":"/a"}
< {"applied":0,"refused":"Document"}

# No document.
> {"op":"reopen","path":"/"}
> {"op":"reopen","path":"/b"}
> {"op":"reopen","path":"/a/b/c"}
> {"op":"reopen","path":"/a/zarr.json"}
> {"op":"read_box","path":"/a","box":[[1,3],[1,3]]}
> {"op":"read_box","path":"/","box":[[1,3],[1,3]]}
> {"op":"read_box","path":"/b","box":[[1,3],[1,3]]}
> {"op":"read_box","path":"/a/b/c","box":[[1,3],[1,3]]}
> {"op":"read_box","path":"/a/zarr.json","box":[[1,3],[1,3]]}
< {"applied":0,"refused":"NoArray"}

after: as before
