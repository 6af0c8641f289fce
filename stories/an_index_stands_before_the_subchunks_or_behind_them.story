The index of a shard stands before its subchunks or behind them, and says from the first byte of the value on where each one stands.

> {"op":"create","path":"/a","document":$zeros{"shape":[4,4],"data_type":"uint16","chunk_grid":{"name":"regular","configuration":{"chunk_shape":[4,4]}},"codecs":[{"name":"sharding_indexed","configuration":{"chunk_shape":[2,2],"codecs":[{"name":"bytes","configuration":{"endian":"little"}}],"index_codecs":[{"name":"bytes","configuration":{"endian":"little"}}],"index_location":"start"}}]},"order":"C"}
> {"op":"create","path":"/b","document":$zeros{"shape":[4,4],"data_type":"uint16","chunk_grid":{"name":"regular","configuration":{"chunk_shape":[4,4]}},"codecs":[{"name":"sharding_indexed","configuration":{"chunk_shape":[2,2],"codecs":[{"name":"bytes","configuration":{"endian":"little"}}],"index_codecs":[{"name":"bytes","configuration":{"endian":"little"}}],"index_location":"end"}}]},"order":"C"}
> {"op":"write_box","path":"/a","box":[[0,4],[0,4]],"cells":[0,1,2,3,4,5,6,7,8,9,10,11,12,13,14,15]}
> {"op":"write_box","path":"/b","box":[[0,4],[0,4]],"cells":[0,1,2,3,4,5,6,7,8,9,10,11,12,13,14,15]}
# The bytes of the index stand in the order that its own codec gives.
> {"op":"create","path":"/c","document":$zeros{"shape":[4],"data_type":"uint16","chunk_grid":{"name":"regular","configuration":{"chunk_shape":[4]}},"codecs":[{"name":"sharding_indexed","configuration":{"chunk_shape":[2],"codecs":[{"name":"bytes","configuration":{"endian":"big"}}],"index_codecs":[{"name":"bytes","configuration":{"endian":"big"}}],"index_location":"start"}}]},"order":"C"}
> {"op":"write_box","path":"/c","box":[[1,4]],"cells":[0,258,3]}
< {"done":true}
> {"op":"read_box","path":"/c","box":[[0,4]]}
< {"cells":[0,0,258,3]}

after:
  a/c/0/0 = 4000000000000000 0800000000000000 4800000000000000 0800000000000000 5000000000000000 0800000000000000 5800000000000000 0800000000000000 0000 0100 0400 0500  0200 0300 0600 0700  0800 0900 0c00 0d00  0a00 0b00 0e00 0f00
  a/zarr.json = $stored{"shape":[4,4],"data_type":"uint16","chunk_grid":{"name":"regular","configuration":{"chunk_shape":[4,4]}},"codecs":[{"name":"sharding_indexed","configuration":{"chunk_shape":[2,2],"codecs":[{"name":"bytes","configuration":{"endian":"little"}}],"index_codecs":[{"name":"bytes","configuration":{"endian":"little"}}],"index_location":"start"}}]}
  b/c/0/0 = 0000 0100 0400 0500  0200 0300 0600 0700  0800 0900 0c00 0d00  0a00 0b00 0e00 0f00 0000000000000000 0800000000000000 0800000000000000 0800000000000000 1000000000000000 0800000000000000 1800000000000000 0800000000000000
  b/zarr.json = $stored{"shape":[4,4],"data_type":"uint16","chunk_grid":{"name":"regular","configuration":{"chunk_shape":[4,4]}},"codecs":[{"name":"sharding_indexed","configuration":{"chunk_shape":[2,2],"codecs":[{"name":"bytes","configuration":{"endian":"little"}}],"index_codecs":[{"name":"bytes","configuration":{"endian":"little"}}],"index_location":"end"}}]}
  c/c/0 = ffffffffffffffff ffffffffffffffff 0000000000000020 0000000000000004 0102 0003
  c/zarr.json = $stored{"shape":[4],"data_type":"uint16","chunk_grid":{"name":"regular","configuration":{"chunk_shape":[4]}},"codecs":[{"name":"sharding_indexed","configuration":{"chunk_shape":[2],"codecs":[{"name":"bytes","configuration":{"endian":"big"}}],"index_codecs":[{"name":"bytes","configuration":{"endian":"big"}}],"index_location":"start"}}]}

> {"op":"reopen","path":"/a","order":"C"}
> {"op":"reopen","path":"/b","order":"C"}
> {"op":"write_box","path":"/a","box":[[0,2],[2,4]],"cells":[100,101,102,103]}
> {"op":"write_box","path":"/b","box":[[0,2],[2,4]],"cells":[100,101,102,103]}
< {"done":true}
> {"op":"read_chunk","path":"/a","chunk":[0,0]}
> {"op":"read_chunk","path":"/b","chunk":[0,0]}
< {"cells":[0,1,100,101,4,5,102,103,8,9,10,11,12,13,14,15]}

after:
  a/c/0/0 = 4000000000000000 0800000000000000 4800000000000000 0800000000000000 5000000000000000 0800000000000000 5800000000000000 0800000000000000 0000 0100 0400 0500  6400 6500 6600 6700  0800 0900 0c00 0d00  0a00 0b00 0e00 0f00
  a/zarr.json = $stored{"shape":[4,4],"data_type":"uint16","chunk_grid":{"name":"regular","configuration":{"chunk_shape":[4,4]}},"codecs":[{"name":"sharding_indexed","configuration":{"chunk_shape":[2,2],"codecs":[{"name":"bytes","configuration":{"endian":"little"}}],"index_codecs":[{"name":"bytes","configuration":{"endian":"little"}}],"index_location":"start"}}]}
  b/c/0/0 = 0000 0100 0400 0500  6400 6500 6600 6700  0800 0900 0c00 0d00  0a00 0b00 0e00 0f00 0000000000000000 0800000000000000 0800000000000000 0800000000000000 1000000000000000 0800000000000000 1800000000000000 0800000000000000
  b/zarr.json = $stored{"shape":[4,4],"data_type":"uint16","chunk_grid":{"name":"regular","configuration":{"chunk_shape":[4,4]}},"codecs":[{"name":"sharding_indexed","configuration":{"chunk_shape":[2,2],"codecs":[{"name":"bytes","configuration":{"endian":"little"}}],"index_codecs":[{"name":"bytes","configuration":{"endian":"little"}}],"index_location":"end"}}]}
  c/c/0 = ffffffffffffffff ffffffffffffffff 0000000000000020 0000000000000004 0102 0003
  c/zarr.json = $stored{"shape":[4],"data_type":"uint16","chunk_grid":{"name":"regular","configuration":{"chunk_shape":[4]}},"codecs":[{"name":"sharding_indexed","configuration":{"chunk_shape":[2],"codecs":[{"name":"bytes","configuration":{"endian":"big"}}],"index_codecs":[{"name":"bytes","configuration":{"endian":"big"}}],"index_location":"start"}}]}
