With its index at the end, a chunk of bytes holds the bytes, where each element ends, and how long the index is.

> {"op":"create","path":"/b","document":$zeros{"shape":[3],"data_type":"bytes","chunk_grid":{"name":"regular","configuration":{"chunk_shape":[3]}},"fill_value":[],"codecs":[{"name":"zarrs.vlen","configuration":{"index_codecs":[{"name":"bytes","configuration":{"endian":"big"}}],"data_codecs":["bytes"],"index_data_type":"uint64","index_location":"end"}}]}}
> {"op":"write_chunk","path":"/b","chunk":[0],"cells":[[7],[],[1,2,255]]}
< {"done":true}
> {"op":"read_chunk","path":"/b","chunk":[0]}
< {"cells":[[7],[],[1,2,255]]}

after:
  b/c/0 = 070102ff 0000000000000000 0000000000000001 0000000000000001 0000000000000004 2000000000000000
  b/zarr.json = $stored{"shape":[3],"data_type":"bytes","chunk_grid":{"name":"regular","configuration":{"chunk_shape":[3]}},"fill_value":[],"codecs":[{"name":"zarrs.vlen","configuration":{"index_codecs":[{"name":"bytes","configuration":{"endian":"big"}}],"data_codecs":["bytes"],"index_data_type":"uint64","index_location":"end"}}]}
