Chunk [1, 23] has another key under each chunk key encoding.

> {"op":"create","path":"/a","document":$zeros{"shape":[2,24],"chunk_grid":{"name":"regular","configuration":{"chunk_shape":[1,1]}},"chunk_key_encoding":"default"}}
> {"op":"write_chunk","path":"/a","chunk":[1,23],"cells":[7]}
> {"op":"create","path":"/b","document":$zeros{"shape":[2,24],"chunk_grid":{"name":"regular","configuration":{"chunk_shape":[1,1]}},"chunk_key_encoding":{"name":"default","configuration":{"separator":"."}}}}
> {"op":"write_chunk","path":"/b","chunk":[1,23],"cells":[7]}
> {"op":"create","path":"/c","document":$zeros{"shape":[2,24],"chunk_grid":{"name":"regular","configuration":{"chunk_shape":[1,1]}},"chunk_key_encoding":"v2"}}
> {"op":"write_chunk","path":"/c","chunk":[1,23],"cells":[7]}
> {"op":"create","path":"/d","document":$zeros{"shape":[2,24],"chunk_grid":{"name":"regular","configuration":{"chunk_shape":[1,1]}},"chunk_key_encoding":{"name":"v2","configuration":{"separator":"/"}}}}
> {"op":"write_chunk","path":"/d","chunk":[1,23],"cells":[7]}
> {"op":"create","path":"/e","document":$zeros{"shape":[2,24],"chunk_grid":{"name":"regular","configuration":{"chunk_shape":[1,1]}},"chunk_key_encoding":{"name":"default_suffix","configuration":{"separator":".","suffix":".bin"}}}}
> {"op":"write_chunk","path":"/e","chunk":[1,23],"cells":[7]}
> {"op":"create","path":"/f","document":$zeros{"shape":[2,24],"chunk_grid":{"name":"regular","configuration":{"chunk_shape":[1,1]}},"chunk_key_encoding":{"name":"default_suffix","configuration":{"suffix":"x"}}}}
> {"op":"write_chunk","path":"/f","chunk":[1,23],"cells":[7]}
< {"done":true}

after:
  a/c/1/23 = 07
  a/zarr.json = $stored{"shape":[2,24],"chunk_grid":{"name":"regular","configuration":{"chunk_shape":[1,1]}}}
  b/c.1.23 = 07
  b/zarr.json = $stored{"shape":[2,24],"chunk_grid":{"name":"regular","configuration":{"chunk_shape":[1,1]}},"chunk_key_encoding":{"name":"default","configuration":{"separator":"."}}}
  c/1.23 = 07
  c/zarr.json = $stored{"shape":[2,24],"chunk_grid":{"name":"regular","configuration":{"chunk_shape":[1,1]}},"chunk_key_encoding":"v2"}
  d/1/23 = 07
  d/zarr.json = $stored{"shape":[2,24],"chunk_grid":{"name":"regular","configuration":{"chunk_shape":[1,1]}},"chunk_key_encoding":{"name":"v2","configuration":{"separator":"/"}}}
  e/c.1.23.bin = 07
  e/zarr.json = $stored{"shape":[2,24],"chunk_grid":{"name":"regular","configuration":{"chunk_shape":[1,1]}},"chunk_key_encoding":{"name":"default_suffix","configuration":{"separator":".","suffix":".bin"}}}
  f/c/1/23x = 07
  f/zarr.json = $stored{"shape":[2,24],"chunk_grid":{"name":"regular","configuration":{"chunk_shape":[1,1]}},"chunk_key_encoding":{"name":"default_suffix","configuration":{"suffix":"x"}}}
