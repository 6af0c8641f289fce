A chunk of a held array under the key of a document of version 2 is no such document.

before:
  a/c.0/.zarray = $zarray{"shape":[],"chunks":[]}
  a/c.00/.zarray = "{}"
  a/c.1/.zarray = $zarray
  a/c.1/zarr.json = $zeros
  a/c.2/.zarray = $zarray{"shape":[],"chunks":[]}
  a/zarr.json = $zeros{"shape":[4],"chunk_grid":{"name":"regular","configuration":{"chunk_shape":[2]}},"chunk_key_encoding":{"name":"default_suffix","configuration":{"separator":".","suffix":"/.zarray"}}}

> {"op":"reopen","path":"/a"}
< {"done":true}
> {"op":"reopen","path":"/a/c.0"}
< {"applied":0,"refused":"NoArray"}
# What stands under a key that only looks like a chunk's is one, and so is what stands for a chunk outside the grid.
> {"op":"reopen","path":"/a/c.00"}
< {"applied":0,"refused":"Document"}
> {"op":"reopen","path":"/a/c.2"}
# The document of version 3 has a key of its own.
> {"op":"reopen","path":"/a/c.1"}
< {"done":true}

after: as before

# While /a isn't held, it is one.
> {"op":"reopen","path":"/a/c.0"}
< {"done":true}
> {"op":"read_box","path":"/a/c.0","box":[]}
< {"cells":[0]}

after: as before
