With a dot as separator, the keys of chunks have dots where others have slashes.

> {"op":"create","path":"/a","document":$zeros{"chunk_key_encoding":{"name":"default","configuration":{"separator":"."}}}}
> {"op":"write_chunk","path":"/a","chunk":[1,0],"cells":[1,2,3,4]}
> {"op":"reopen","path":"/a"}
< {"done":true}
> {"op":"read_box","path":"/a","box":[[2,4],[0,3]]}
< {"cells":[1,2,0,3,4,0]}

after:
  a/c.1.0 = 01 02 03 04
  a/zarr.json = $stored{"chunk_key_encoding":{"name":"default","configuration":{"separator":"."}}}

> {"op":"reopen","path":"/a"}
< {"done":true}
> {"op":"read_chunk","path":"/a","chunk":[1,0]}
< {"cells":[1,2,3,4]}
> {"op":"erase_chunks","path":"/a","box":[[0,2],[0,2]]}
# A part of a chunk of [2,3], and its erasure.
> {"op":"create","path":"/b","document":$zeros{"shape":[4,6],"chunk_grid":{"name":"regular","configuration":{"chunk_shape":[2,3]}},"fill_value":200,"chunk_key_encoding":{"name":"default","configuration":{"separator":"."}}}}
> {"op":"write_box","path":"/b","box":[[2,3],[1,2]],"cells":[7]}
< {"done":true}
> {"op":"read_box","path":"/b","box":[[2,3],[0,4]]}
< {"cells":[200,7,200,200]}

after:
  a/zarr.json = $stored{"chunk_key_encoding":{"name":"default","configuration":{"separator":"."}}}
  b/c.1.0 = c8 07 c8 c8 c8 c8
  b/zarr.json = $stored{"shape":[4,6],"chunk_grid":{"name":"regular","configuration":{"chunk_shape":[2,3]}},"fill_value":200,"chunk_key_encoding":{"name":"default","configuration":{"separator":"."}}}

> {"op":"reopen","path":"/b"}
> {"op":"erase_chunks","path":"/b","box":[[1,2],[0,1]]}
< {"done":true}

after:
  a/zarr.json = $stored{"chunk_key_encoding":{"name":"default","configuration":{"separator":"."}}}
  b/zarr.json = $stored{"shape":[4,6],"chunk_grid":{"name":"regular","configuration":{"chunk_shape":[2,3]}},"fill_value":200,"chunk_key_encoding":{"name":"default","configuration":{"separator":"."}}}
