A cell of several bytes is stored in the byte order that its codec says.

# No dimensions: the least byte first, and the greatest.
> {"op":"create","path":"/s","document":$zeros{"shape":[],"data_type":"int16","chunk_grid":{"name":"regular","configuration":{"chunk_shape":[]}},"codecs":[{"name":"bytes","configuration":{"endian":"little"}}]}}
> {"op":"write_box","path":"/s","box":[],"cells":[-5]}
> {"op":"create","path":"/t","document":$zeros{"shape":[],"data_type":"int16","chunk_grid":{"name":"regular","configuration":{"chunk_shape":[]}},"codecs":[{"name":"bytes","configuration":{"endian":"big"}}]}}
> {"op":"write_box","path":"/t","box":[],"cells":[-5]}
< {"done":true}
> {"op":"read_box","path":"/s","box":[]}
> {"op":"read_chunk","path":"/t","chunk":[]}
< {"cells":[-5]}
# A last chunk that ends with the array, and keys of version 2.
> {"op":"create","path":"/b","document":$zeros{"shape":[3],"data_type":"uint16","chunk_grid":{"name":"regular_bounded","configuration":{"chunk_shape":[2]}},"chunk_key_encoding":"v2","codecs":[{"name":"bytes","configuration":{"endian":"big"}}]}}
> {"op":"write_box","path":"/b","box":[[0,3]],"cells":[1,2,3]}
< {"done":true}
> {"op":"read_box","path":"/b","box":[[0,3]]}
< {"cells":[1,2,3]}
> {"op":"read_chunk","path":"/b","chunk":[1]}
< {"cells":[3]}

after:
  b/0 = 00 01 00 02
  b/1 = 00 03
  b/zarr.json = $stored{"shape":[3],"data_type":"uint16","chunk_grid":{"name":"regular_bounded","configuration":{"chunk_shape":[2]}},"chunk_key_encoding":"v2","codecs":[{"name":"bytes","configuration":{"endian":"big"}}]}
  s/c = fb ff
  s/zarr.json = $stored{"shape":[],"data_type":"int16","chunk_grid":{"name":"regular","configuration":{"chunk_shape":[]}},"codecs":[{"name":"bytes","configuration":{"endian":"little"}}]}
  t/c = ff fb
  t/zarr.json = $stored{"shape":[],"data_type":"int16","chunk_grid":{"name":"regular","configuration":{"chunk_shape":[]}},"codecs":[{"name":"bytes","configuration":{"endian":"big"}}]}
