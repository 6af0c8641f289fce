A held array of version 2 whose .zarray or .zattrs isn't what it was is not reopened, until it is so again. Here chunks of other arrays stand under these keys.

before:
  b/c/0/.zarray = $zarray
  b/c/0/.zattrs = "{}"
  b/c/1/.zarray = $zarray
  b/zarr.json = $zeros{"shape":[4],"chunk_grid":{"name":"regular","configuration":{"chunk_shape":[2]}},"chunk_key_encoding":{"name":"default_suffix","configuration":{"suffix":"/.zattrs"}}}
  d/c/0/.zarray = $zarray
  d/zarr.json = $zeros{"shape":[4],"chunk_grid":{"name":"regular","configuration":{"chunk_shape":[2]}},"chunk_key_encoding":{"name":"default_suffix","configuration":{"suffix":"/.zarray"}}}

> {"op":"reopen","path":"/b/c/0"}
> {"op":"reopen","path":"/b/c/1"}
> {"op":"reopen","path":"/d/c/0"}
> {"op":"reopen","path":"/b"}
> {"op":"reopen","path":"/d"}
> {"op":"reopen","path":"/b/c/0","order":"C"}
> {"op":"reopen","path":"/b/c/1","order":"C"}
> {"op":"reopen","path":"/d/c/0","order":"C"}
# Cells that spell no JSON, and then a list.
> {"op":"write_chunk","path":"/b","chunk":[0],"cells":[123,123]}
< {"done":true}
> {"op":"reopen","path":"/b/c/0"}
< {"applied":0,"refused":"DocumentChanged"}
> {"op":"write_chunk","path":"/b","chunk":[0],"cells":[91,93]}
< {"done":true}
> {"op":"reopen","path":"/b/c/0"}
< {"applied":0,"refused":"DocumentChanged"}
# Without .zattrs the array would have no attributes: that is another document than one with none of them in an object.
> {"op":"erase_chunks","path":"/b","box":[[0,1]]}
< {"done":true}
> {"op":"reopen","path":"/b/c/0"}
< {"applied":0,"refused":"DocumentChanged"}
# An object without members again.
> {"op":"write_chunk","path":"/b","chunk":[0],"cells":[123,125]}
> {"op":"reopen","path":"/b/c/0"}
< {"done":true}
# An array that had no .zattrs.
> {"op":"write_chunk","path":"/b","chunk":[1],"cells":[123,125]}
< {"done":true}
> {"op":"reopen","path":"/b/c/1"}
< {"applied":0,"refused":"DocumentChanged"}
> {"op":"erase_chunks","path":"/d","box":[[0,1]]}
< {"done":true}
> {"op":"reopen","path":"/d/c/0"}
< {"applied":0,"refused":"DocumentChanged"}
# They are still held.
> {"op":"read_box","path":"/b/c/0","box":[[0,1],[0,2]]}
> {"op":"read_box","path":"/d/c/0","box":[[0,1],[0,2]]}
< {"cells":[0,0]}

after:
  b/c/0/.zarray = $zarray
  b/c/0/.zattrs = "{}"
  b/c/1/.zarray = $zarray
  b/c/1/.zattrs = "{}"
  b/zarr.json = $zeros{"shape":[4],"chunk_grid":{"name":"regular","configuration":{"chunk_shape":[2]}},"chunk_key_encoding":{"name":"default_suffix","configuration":{"suffix":"/.zattrs"}}}
  d/zarr.json = $zeros{"shape":[4],"chunk_grid":{"name":"regular","configuration":{"chunk_shape":[2]}},"chunk_key_encoding":{"name":"default_suffix","configuration":{"suffix":"/.zarray"}}}
