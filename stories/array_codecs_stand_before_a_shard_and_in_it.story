A chunk is transposed, squeezed or reshaped before it is a shard, whose subchunks are then those of the new shape; or each subchunk is.

# A shard of 6 by 2 in subchunks of 3 by 2.
> {"op":"create","path":"/t","document":$zeros{"shape":[2,6],"chunk_grid":{"name":"regular","configuration":{"chunk_shape":[2,6]}},"codecs":[{"name":"transpose","configuration":{"order":[1,0]}},{"name":"sharding_indexed","configuration":{"chunk_shape":[3,2],"codecs":["bytes"],"index_codecs":[{"name":"bytes","configuration":{"endian":"little"}}]}}]},"order":"C"}
> {"op":"write_box","path":"/t","box":[[0,2],[0,6]],"cells":[1,2,3,4,5,6,7,8,9,10,11,12]}
# Subchunks of 2 by 2, each transposed.
> {"op":"create","path":"/i","document":$zeros{"shape":[2,4],"chunk_grid":{"name":"regular","configuration":{"chunk_shape":[2,4]}},"codecs":[{"name":"sharding_indexed","configuration":{"chunk_shape":[2,2],"codecs":[{"name":"transpose","configuration":{"order":[1,0]}},"bytes"],"index_codecs":[{"name":"bytes","configuration":{"endian":"little"}}]}}]},"order":"C"}
> {"op":"write_box","path":"/i","box":[[0,2],[0,4]],"cells":[1,2,3,4,5,6,7,8]}
# A shard of one dimension, without the one of size one.
> {"op":"create","path":"/s","document":$zeros{"shape":[1,4],"chunk_grid":{"name":"regular","configuration":{"chunk_shape":[1,4]}},"codecs":["squeeze",{"name":"sharding_indexed","configuration":{"chunk_shape":[2],"codecs":["bytes"],"index_codecs":[{"name":"bytes","configuration":{"endian":"little"}}]}}]},"order":"C"}
> {"op":"write_box","path":"/s","box":[[0,1],[1,4]],"cells":[2,3,4]}
# A shard of six in subchunks of two.
> {"op":"create","path":"/r","document":$zeros{"shape":[2,3],"chunk_grid":{"name":"regular","configuration":{"chunk_shape":[2,3]}},"codecs":[{"name":"reshape","configuration":{"shape":[[0,1]]}},{"name":"sharding_indexed","configuration":{"chunk_shape":[2],"codecs":["bytes"],"index_codecs":[{"name":"bytes","configuration":{"endian":"little"}}]}}]},"order":"C"}
> {"op":"write_box","path":"/r","box":[[0,2],[0,3]],"cells":[1,2,3,4,5,6]}
< {"done":true}
# Parts are read by their places in the array.
> {"op":"read_box","path":"/t","box":[[0,2],[1,2]]}
< {"cells":[2,8]}
> {"op":"read_box","path":"/i","box":[[1,2],[1,3]]}
< {"cells":[6,7]}
> {"op":"read_box","path":"/s","box":[[0,1],[0,3]]}
< {"cells":[0,2,3]}
> {"op":"read_box","path":"/r","box":[[0,2],[1,2]]}
< {"cells":[2,5]}

after:
  i/c/0/0 = 01 05 02 06 03 07 04 08 0000000000000000 0400000000000000 0400000000000000 0400000000000000
  i/zarr.json = $stored{"shape":[2,4],"chunk_grid":{"name":"regular","configuration":{"chunk_shape":[2,4]}},"codecs":[{"name":"sharding_indexed","configuration":{"chunk_shape":[2,2],"codecs":[{"name":"transpose","configuration":{"order":[1,0]}},"bytes"],"index_codecs":[{"name":"bytes","configuration":{"endian":"little"}}]}}]}
  r/c/0/0 = 01 02 03 04 05 06 0000000000000000 0200000000000000 0200000000000000 0200000000000000 0400000000000000 0200000000000000
  r/zarr.json = $stored{"shape":[2,3],"chunk_grid":{"name":"regular","configuration":{"chunk_shape":[2,3]}},"codecs":[{"name":"reshape","configuration":{"shape":[[0,1]]}},{"name":"sharding_indexed","configuration":{"chunk_shape":[2],"codecs":["bytes"],"index_codecs":[{"name":"bytes","configuration":{"endian":"little"}}]}}]}
  s/c/0/0 = 00 02 03 04 0000000000000000 0200000000000000 0200000000000000 0200000000000000
  s/zarr.json = $stored{"shape":[1,4],"chunk_grid":{"name":"regular","configuration":{"chunk_shape":[1,4]}},"codecs":["squeeze",{"name":"sharding_indexed","configuration":{"chunk_shape":[2],"codecs":["bytes"],"index_codecs":[{"name":"bytes","configuration":{"endian":"little"}}]}}]}
  t/c/0/0 = 01 07 02 08 03 09 04 0a 05 0b 06 0c 0000000000000000 0600000000000000 0600000000000000 0600000000000000
  t/zarr.json = $stored{"shape":[2,6],"chunk_grid":{"name":"regular","configuration":{"chunk_shape":[2,6]}},"codecs":[{"name":"transpose","configuration":{"order":[1,0]}},{"name":"sharding_indexed","configuration":{"chunk_shape":[3,2],"codecs":["bytes"],"index_codecs":[{"name":"bytes","configuration":{"endian":"little"}}]}}]}

# They are written so too, also in part through a reshape.
> {"op":"reopen","path":"/i","order":"C"}
> {"op":"reopen","path":"/r","order":"C"}
> {"op":"reopen","path":"/s","order":"C"}
> {"op":"reopen","path":"/t","order":"C"}
> {"op":"write_box","path":"/i","box":[[1,2],[0,3]],"cells":[20,21,22]}
> {"op":"write_box","path":"/r","box":[[0,2],[1,2]],"cells":[20,21],"options":{"partial":true}}
> {"op":"write_box","path":"/s","box":[[0,1],[1,3]],"cells":[0,20]}
> {"op":"write_box","path":"/t","box":[[0,1],[0,6]],"cells":[0,0,0,20,21,22]}
> {"op":"write_box","path":"/t","box":[[1,2],[0,3]],"cells":[0,0,0]}
< {"done":true}
> {"op":"read_chunk","path":"/i","chunk":[0,0]}
< {"cells":[1,2,3,4,20,21,22,8]}
> {"op":"read_chunk","path":"/r","chunk":[0,0]}
< {"cells":[1,20,3,4,21,6]}
> {"op":"read_chunk","path":"/s","chunk":[0,0]}
< {"cells":[0,0,20,4]}
> {"op":"read_chunk","path":"/t","chunk":[0,0]}
< {"cells":[0,0,0,20,21,22,0,0,0,10,11,12]}

after:
  i/c/0/0 = 01 14 02 15 03 16 04 08 0000000000000000 0400000000000000 0400000000000000 0400000000000000
  i/zarr.json = $stored{"shape":[2,4],"chunk_grid":{"name":"regular","configuration":{"chunk_shape":[2,4]}},"codecs":[{"name":"sharding_indexed","configuration":{"chunk_shape":[2,2],"codecs":[{"name":"transpose","configuration":{"order":[1,0]}},"bytes"],"index_codecs":[{"name":"bytes","configuration":{"endian":"little"}}]}}]}
  r/c/0/0 = 01 14 03 04 15 06 0000000000000000 0200000000000000 0200000000000000 0200000000000000 0400000000000000 0200000000000000
  r/zarr.json = $stored{"shape":[2,3],"chunk_grid":{"name":"regular","configuration":{"chunk_shape":[2,3]}},"codecs":[{"name":"reshape","configuration":{"shape":[[0,1]]}},{"name":"sharding_indexed","configuration":{"chunk_shape":[2],"codecs":["bytes"],"index_codecs":[{"name":"bytes","configuration":{"endian":"little"}}]}}]}
  s/c/0/0 = 14 04 ffffffffffffffff ffffffffffffffff 0000000000000000 0200000000000000
  s/zarr.json = $stored{"shape":[1,4],"chunk_grid":{"name":"regular","configuration":{"chunk_shape":[1,4]}},"codecs":["squeeze",{"name":"sharding_indexed","configuration":{"chunk_shape":[2],"codecs":["bytes"],"index_codecs":[{"name":"bytes","configuration":{"endian":"little"}}]}}]}
  t/c/0/0 = 14 0a 15 0b 16 0c ffffffffffffffff ffffffffffffffff 0000000000000000 0600000000000000
  t/zarr.json = $stored{"shape":[2,6],"chunk_grid":{"name":"regular","configuration":{"chunk_shape":[2,6]}},"codecs":[{"name":"transpose","configuration":{"order":[1,0]}},{"name":"sharding_indexed","configuration":{"chunk_shape":[3,2],"codecs":["bytes"],"index_codecs":[{"name":"bytes","configuration":{"endian":"little"}}]}}]}
