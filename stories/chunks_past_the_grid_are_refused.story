A chunk index past the grid, or of other dimensions, is refused before the cells are looked at.

> {"op":"create","path":"/a","document":$zeros}
< {"done":true}
> {"op":"write_chunk","path":"/a","chunk":[2,0],"cells":[1]}
> {"op":"write_chunk","path":"/a","chunk":[0,2],"cells":[1]}
> {"op":"write_chunk","path":"/a","chunk":[0],"cells":[1]}
> {"op":"write_chunk","path":"/a","chunk":[0,0,0],"cells":[1]}
> {"op":"write_chunk","path":"/a","chunk":[0,18446744073709551615],"cells":[1]}
> {"op":"read_chunk","path":"/a","chunk":[2,0]}
> {"op":"read_chunk","path":"/a","chunk":[0,2]}
> {"op":"read_chunk","path":"/a","chunk":[0]}
> {"op":"read_chunk","path":"/a","chunk":[0,0,0]}
> {"op":"read_chunk","path":"/a","chunk":[0,18446744073709551615]}
> {"op":"erase_chunks","path":"/a","box":[[0,3],[0,1]]}
> {"op":"erase_chunks","path":"/a","box":[[1,2],[0,18446744073709551615]]}
> {"op":"erase_chunks","path":"/a","box":[[0,1]]}
> {"op":"erase_chunks","path":"/a","box":[[0,0],[0,0],[0,0]]}
< {"applied":0,"refused":"Region"}
# In the grid the cells are looked at.
> {"op":"write_chunk","path":"/a","chunk":[0,0],"cells":[1,2,3]}
> {"op":"write_chunk","path":"/a","chunk":[0,0],"cells":[1,2,3,256]}
< {"applied":0,"refused":"Data"}

after:
  a/zarr.json = $stored
