A chunk of a held array may stand under the key of another path's document: whatever its cells spell, it is no document, while other paths under that array have documents.

before:
  a/c/0/zarr.json = "{}"
  a/c/1/zarr.json = $zeros
  a/c/2/zarr.json = $zeros
  a/zarr.json = $zeros{"shape":[4],"chunk_grid":{"name":"regular","configuration":{"chunk_shape":[2]}},"chunk_key_encoding":{"name":"default_suffix","configuration":{"suffix":"/zarr.json"}}}

# While /a isn't held, what stands under the keys of documents is read as such.
> {"op":"reopen","path":"/a/c/0"}
< {"applied":0,"refused":"Document"}
> {"op":"reopen","path":"/a"}
< {"done":true}
# Chunks 0 and 1 are in its grid.
> {"op":"reopen","path":"/a/c/0"}
> {"op":"reopen","path":"/a/c/1"}
< {"applied":0,"refused":"NoArray"}
# The text of an object without members.
> {"op":"write_chunk","path":"/a","chunk":[1],"cells":[123,125]}
< {"done":true}
> {"op":"reopen","path":"/a/c/1"}
< {"applied":0,"refused":"NoArray"}
# Chunk 2 isn't in the grid.
> {"op":"reopen","path":"/a/c/2"}
< {"done":true}

after:
  a/c/0/zarr.json = "{}"
  a/c/1/zarr.json = "{}"
  a/c/2/zarr.json = $zeros
  a/zarr.json = $zeros{"shape":[4],"chunk_grid":{"name":"regular","configuration":{"chunk_shape":[2]}},"chunk_key_encoding":{"name":"default_suffix","configuration":{"suffix":"/zarr.json"}}}
