A chunk of one array may stand under the key of another one's document: once it is written or erased, the other array isn't reopened.

before:
  a/c/0/zarr.json = $zeros
  a/c/1/zarr.json = $zeros
  a/zarr.json = $zeros{"shape":[4],"chunk_grid":{"name":"regular","configuration":{"chunk_shape":[2]}},"chunk_key_encoding":{"name":"default_suffix","configuration":{"suffix":"/zarr.json"}}}

> {"op":"reopen","path":"/a/c/0"}
> {"op":"reopen","path":"/a/c/1"}
> {"op":"reopen","path":"/a"}
> {"op":"reopen","path":"/a/c/0","order":"C"}
# The text of an object without members.
> {"op":"write_chunk","path":"/a","chunk":[0],"cells":[123,125]}
> {"op":"erase_chunks","path":"/a","box":[[1,2]]}
< {"done":true}
> {"op":"reopen","path":"/a/c/0"}
> {"op":"reopen","path":"/a/c/1"}
< {"applied":0,"refused":"DocumentChanged"}
# They are still held.
> {"op":"read_box","path":"/a/c/0","box":[[0,1],[0,2]]}
> {"op":"read_box","path":"/a/c/1","box":[[0,1],[0,2]]}
< {"cells":[0,0]}
> {"op":"reopen","path":"/a"}
< {"done":true}

after:
  a/c/0/zarr.json = "{}"
  a/zarr.json = $zeros{"shape":[4],"chunk_grid":{"name":"regular","configuration":{"chunk_shape":[2]}},"chunk_key_encoding":{"name":"default_suffix","configuration":{"suffix":"/zarr.json"}}}
