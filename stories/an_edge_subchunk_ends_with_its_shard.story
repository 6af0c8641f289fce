Subchunks needn't divide the shard that they are in: the last one along a dimension ends with the shard, and holds no cell past it.

> {"op":"create","path":"/a","document":$zeros{"shape":[7],"chunk_grid":{"name":"regular_bounded","configuration":{"chunk_shape":[4]}},"codecs":[{"name":"sharding_indexed","configuration":{"chunk_shape":[2],"codecs":["bytes"],"index_codecs":[{"name":"bytes","configuration":{"endian":"little"}}]}}]},"order":"C"}
> {"op":"create","path":"/b","document":$zeros{"shape":[3,3],"chunk_grid":{"name":"regular","configuration":{"chunk_shape":[3,3]}},"codecs":[{"name":"sharding_indexed","configuration":{"chunk_shape":[2,2],"codecs":["bytes"],"index_codecs":[{"name":"bytes","configuration":{"endian":"little"}}]}}]},"order":"C"}
< {"done":true}
> {"op":"write_chunk","path":"/a","chunk":[1],"cells":[5,6,7]}
> {"op":"write_chunk","path":"/b","chunk":[0,0],"cells":[1,2,3,4,5,6,7,8,9]}
< {"done":true}
> {"op":"read_chunk","path":"/a","chunk":[1]}
< {"cells":[5,6,7]}
> {"op":"read_box","path":"/a","box":[[3,6]]}
< {"cells":[0,5,6]}
> {"op":"read_box","path":"/a","box":[[6,7]]}
< {"cells":[7]}
> {"op":"read_chunk","path":"/b","chunk":[0,0]}
< {"cells":[1,2,3,4,5,6,7,8,9]}
> {"op":"read_box","path":"/b","box":[[1,3],[1,3]]}
< {"cells":[5,6,8,9]}
> {"op":"read_box","path":"/b","box":[[2,3],[0,3]]}
< {"cells":[7,8,9]}

after:
  a/c/1 = 0506 07 0000000000000000 0200000000000000 0200000000000000 0100000000000000
  a/zarr.json = $stored{"shape":[7],"chunk_grid":{"name":"regular_bounded","configuration":{"chunk_shape":[4]}},"codecs":[{"name":"sharding_indexed","configuration":{"chunk_shape":[2],"codecs":["bytes"],"index_codecs":[{"name":"bytes","configuration":{"endian":"little"}}]}}]}
  b/c/0/0 = 01020405 0306 0708 09 0000000000000000 0400000000000000 0400000000000000 0200000000000000 0600000000000000 0200000000000000 0800000000000000 0100000000000000
  b/zarr.json = $stored{"shape":[3,3],"chunk_grid":{"name":"regular","configuration":{"chunk_shape":[3,3]}},"codecs":[{"name":"sharding_indexed","configuration":{"chunk_shape":[2,2],"codecs":["bytes"],"index_codecs":[{"name":"bytes","configuration":{"endian":"little"}}]}}]}

# An edge subchunk of the fill value alone has no slice. Other parts of a shard stay as they are.
> {"op":"reopen","path":"/a","order":"C"}
> {"op":"reopen","path":"/b","order":"C"}
> {"op":"write_box","path":"/a","box":[[3,7]],"cells":[4,0,0,7]}
> {"op":"write_box","path":"/b","box":[[0,3],[2,3]],"cells":[0,0,10]}
< {"done":true}
> {"op":"read_box","path":"/a","box":[[2,7]]}
< {"cells":[0,4,0,0,7]}
> {"op":"read_box","path":"/b","box":[[0,3],[1,3]]}
< {"cells":[2,0,5,0,8,10]}
> {"op":"compact","path":"/a","chunk":[1]}
> {"op":"compact","path":"/b","chunk":[0,0]}
< {"compacted":false}
> {"op":"rewrite","path":"/a"}
> {"op":"rewrite","path":"/b"}
< {"done":true}

after:
  a/c/0 = 0004 ffffffffffffffff ffffffffffffffff 0000000000000000 0200000000000000
  a/c/1 = 07 ffffffffffffffff ffffffffffffffff 0000000000000000 0100000000000000
  a/zarr.json = $stored{"shape":[7],"chunk_grid":{"name":"regular_bounded","configuration":{"chunk_shape":[4]}},"codecs":[{"name":"sharding_indexed","configuration":{"chunk_shape":[2],"codecs":["bytes"],"index_codecs":[{"name":"bytes","configuration":{"endian":"little"}}]}}]}
  b/c/0/0 = 01020405 0708 0a 0000000000000000 0400000000000000 ffffffffffffffff ffffffffffffffff 0400000000000000 0200000000000000 0600000000000000 0100000000000000
  b/zarr.json = $stored{"shape":[3,3],"chunk_grid":{"name":"regular","configuration":{"chunk_shape":[3,3]}},"codecs":[{"name":"sharding_indexed","configuration":{"chunk_shape":[2,2],"codecs":["bytes"],"index_codecs":[{"name":"bytes","configuration":{"endian":"little"}}]}}]}
