A chunk of a held array may stand under the key of another array's attributes: what it spells there are these attributes.

before:
  a/c/0/.zarray = $zarray
  a/c/0/.zattrs = "[]"
  a/zarr.json = $zeros{"shape":[2],"chunk_grid":{"name":"regular","configuration":{"chunk_shape":[2]}},"chunk_key_encoding":{"name":"default_suffix","configuration":{"suffix":"/.zattrs"}}}

> {"op":"reopen","path":"/a"}
< {"done":true}
> {"op":"reopen","path":"/a/c/0"}
< {"applied":0,"refused":"Document"}
# Cells that spell an object without members.
> {"op":"write_chunk","path":"/a","chunk":[0],"cells":[123,125]}
> {"op":"reopen","path":"/a/c/0"}
< {"done":true}
> {"op":"read_box","path":"/a/c/0","box":[[0,1],[0,2]]}
< {"cells":[0,0]}

after:
  a/c/0/.zarray = $zarray
  a/c/0/.zattrs = "{}"
  a/zarr.json = $zeros{"shape":[2],"chunk_grid":{"name":"regular","configuration":{"chunk_shape":[2]}},"chunk_key_encoding":{"name":"default_suffix","configuration":{"suffix":"/.zattrs"}}}
