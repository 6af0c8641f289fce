The codec x-reverse behind a shard reverses its whole value; in a shard it reverses each subchunk, or the index.

> {"op":"create","path":"/a","document":$zeros{"shape":[4],"chunk_grid":{"name":"regular","configuration":{"chunk_shape":[4]}},"codecs":[{"name":"sharding_indexed","configuration":{"chunk_shape":[2],"codecs":["bytes"],"index_codecs":[{"name":"bytes","configuration":{"endian":"little"}}]}},"x-reverse"]},"order":"C"}
> {"op":"create","path":"/b","document":$zeros{"shape":[4],"chunk_grid":{"name":"regular","configuration":{"chunk_shape":[4]}},"codecs":[{"name":"sharding_indexed","configuration":{"chunk_shape":[2],"codecs":["bytes","x-reverse"],"index_codecs":[{"name":"bytes","configuration":{"endian":"little"}},"x-reverse"]}}]},"order":"C"}
> {"op":"write_box","path":"/a","box":[[0,2]],"cells":[1,2]}
> {"op":"write_box","path":"/b","box":[[0,3]],"cells":[1,2,3]}
< {"done":true}
> {"op":"read_box","path":"/a","box":[[1,3]]}
< {"cells":[2,0]}
> {"op":"read_box","path":"/b","box":[[1,3]]}
< {"cells":[2,3]}

after:
  a/c/0 = ffffffffffffffff ffffffffffffffff 0000000000000002 0000000000000000 02 01
  a/zarr.json = $stored{"shape":[4],"chunk_grid":{"name":"regular","configuration":{"chunk_shape":[4]}},"codecs":[{"name":"sharding_indexed","configuration":{"chunk_shape":[2],"codecs":["bytes"],"index_codecs":[{"name":"bytes","configuration":{"endian":"little"}}]}},"x-reverse"]}
  b/c/0 = 02 01 00 03 0000000000000002 0000000000000002 0000000000000002 0000000000000000
  b/zarr.json = $stored{"shape":[4],"chunk_grid":{"name":"regular","configuration":{"chunk_shape":[4]}},"codecs":[{"name":"sharding_indexed","configuration":{"chunk_shape":[2],"codecs":["bytes","x-reverse"],"index_codecs":[{"name":"bytes","configuration":{"endian":"little"}},"x-reverse"]}}]}

> {"op":"reopen","path":"/a","order":"C"}
> {"op":"reopen","path":"/b","order":"C"}
> {"op":"write_box","path":"/a","box":[[1,3]],"cells":[8,9]}
> {"op":"write_box","path":"/b","box":[[0,2]],"cells":[0,0]}
< {"done":true}
> {"op":"read_chunk","path":"/a","chunk":[0]}
< {"cells":[1,8,9,0]}
> {"op":"read_chunk","path":"/b","chunk":[0]}
< {"cells":[0,0,3,0]}

after:
  a/c/0 = 0000000000000002 0000000000000002 0000000000000002 0000000000000000 00 09 08 01
  a/zarr.json = $stored{"shape":[4],"chunk_grid":{"name":"regular","configuration":{"chunk_shape":[4]}},"codecs":[{"name":"sharding_indexed","configuration":{"chunk_shape":[2],"codecs":["bytes"],"index_codecs":[{"name":"bytes","configuration":{"endian":"little"}}]}},"x-reverse"]}
  b/c/0 = 00 03 0000000000000002 0000000000000000 ffffffffffffffff ffffffffffffffff
  b/zarr.json = $stored{"shape":[4],"chunk_grid":{"name":"regular","configuration":{"chunk_shape":[4]}},"codecs":[{"name":"sharding_indexed","configuration":{"chunk_shape":[2],"codecs":["bytes","x-reverse"],"index_codecs":[{"name":"bytes","configuration":{"endian":"little"}},"x-reverse"]}}]}
