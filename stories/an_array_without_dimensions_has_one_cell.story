An array without dimensions has one cell, in a chunk with the key 'c'.

> {"op":"create","path":"/a","document":$zeros{"shape":[],"chunk_grid":{"name":"regular","configuration":{"chunk_shape":[]}}}}
> {"op":"write_box","path":"/a","box":[],"cells":[7]}
< {"done":true}
> {"op":"read_box","path":"/a","box":[]}
< {"cells":[7]}
> {"op":"create","path":"/b","document":$zeros{"shape":[],"chunk_grid":{"name":"regular","configuration":{"chunk_shape":[]}},"fill_value":3}}
> {"op":"write_chunk","path":"/b","chunk":[],"cells":[4]}
< {"done":true}
> {"op":"read_chunk","path":"/b","chunk":[]}
< {"cells":[4]}
> {"op":"erase_chunks","path":"/b","box":[]}
< {"done":true}
> {"op":"read_chunk","path":"/b","chunk":[]}
> {"op":"read_box","path":"/b","box":[]}
< {"cells":[3]}

after:
  a/c = 07
  a/zarr.json = $stored{"shape":[],"chunk_grid":{"name":"regular","configuration":{"chunk_shape":[]}}}
  b/zarr.json = $stored{"shape":[],"chunk_grid":{"name":"regular","configuration":{"chunk_shape":[]}},"fill_value":3}
