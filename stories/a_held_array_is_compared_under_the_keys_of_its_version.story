A held array stays the one that was opened when a document of the other version comes to stand beside its own: that one is opened by another session.

before:
  a/c/0/.zarray = $zarray
  a/c/0/0.0 = 01 02 03 04
  a/zarr.json = $zeros{"shape":[2],"chunk_grid":{"name":"regular","configuration":{"chunk_shape":[2]}},"chunk_key_encoding":{"name":"default_suffix","configuration":{"suffix":"/zarr.json"}}}

> {"op":"reopen","path":"/a/c/0"}
> {"op":"reopen","path":"/a"}
# Cells that spell an object without members.
> {"op":"write_chunk","path":"/a","chunk":[0],"cells":[123,125]}
> {"op":"reopen","path":"/a/c/0"}
< {"done":true}
> {"op":"read_chunk","path":"/a/c/0","chunk":[0,0]}
< {"cells":[1,2,3,4]}

after:
  a/c/0/.zarray = $zarray
  a/c/0/0.0 = 01 02 03 04
  a/c/0/zarr.json = "{}"
  a/zarr.json = $zeros{"shape":[2],"chunk_grid":{"name":"regular","configuration":{"chunk_shape":[2]}},"chunk_key_encoding":{"name":"default_suffix","configuration":{"suffix":"/zarr.json"}}}

> {"op":"reopen","path":"/a/c/0"}
< {"applied":0,"refused":"Document"}
# While /a is held its chunk is no document.
> {"op":"reopen","path":"/a"}
> {"op":"reopen","path":"/a/c/0"}
< {"done":true}
> {"op":"read_chunk","path":"/a/c/0","chunk":[0,0]}
< {"cells":[1,2,3,4]}

after: as before
