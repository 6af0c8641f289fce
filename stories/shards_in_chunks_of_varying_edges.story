Each chunk is a shard of as many subchunks as it has, also one that lies past the array as a whole.

> {"op":"create","path":"/a","document":$zeros{"shape":[6],"chunk_grid":{"name":"rectilinear","configuration":{"kind":"inline","chunk_shapes":[[4,2]]}},"codecs":[{"name":"sharding_indexed","configuration":{"chunk_shape":[2],"codecs":["bytes"],"index_codecs":[{"name":"bytes","configuration":{"endian":"little"}}]}}]},"order":"C"}
> {"op":"write_box","path":"/a","box":[[0,6]],"cells":[1,2,3,4,5,6]}
> {"op":"create","path":"/b","document":$zeros{"shape":[6,6],"chunk_grid":{"name":"rectilinear","configuration":{"kind":"inline","chunk_shapes":[[4,4,4],[3,3,3]]}},"codecs":[{"name":"sharding_indexed","configuration":{"chunk_shape":[2,3],"codecs":["bytes"],"index_codecs":[{"name":"bytes","configuration":{"endian":"little"}}]}}]},"order":"C"}
> {"op":"write_chunk","path":"/b","chunk":[2,2],"cells":[1,2,3,4,5,6,7,8,9,10,11,12]}
# The cell at [5,5] is the last one of the first subchunk of the chunk [1,1].
> {"op":"write_box","path":"/b","box":[[5,6],[5,6]],"cells":[9]}
< {"done":true}
> {"op":"read_box","path":"/a","box":[[3,5]]}
< {"cells":[4,5]}
> {"op":"read_chunk","path":"/b","chunk":[2,2]}
< {"cells":[1,2,3,4,5,6,7,8,9,10,11,12]}
> {"op":"read_box","path":"/b","box":[[4,6],[4,6]]}
< {"cells":[0,0,0,9]}

after:
  a/c/0 = 0102 0304 0000000000000000 0200000000000000 0200000000000000 0200000000000000
  a/c/1 = 0506 0000000000000000 0200000000000000
  a/zarr.json = $stored{"shape":[6],"chunk_grid":{"name":"rectilinear","configuration":{"kind":"inline","chunk_shapes":[[4,2]]}},"codecs":[{"name":"sharding_indexed","configuration":{"chunk_shape":[2],"codecs":["bytes"],"index_codecs":[{"name":"bytes","configuration":{"endian":"little"}}]}}]}
  b/c/1/1 = 000000000009 0000000000000000 0600000000000000 ffffffffffffffff ffffffffffffffff
  b/c/2/2 = 010203040506 0708090a0b0c 0000000000000000 0600000000000000 0600000000000000 0600000000000000
  b/zarr.json = $stored{"shape":[6,6],"chunk_grid":{"name":"rectilinear","configuration":{"kind":"inline","chunk_shapes":[[4,4,4],[3,3,3]]}},"codecs":[{"name":"sharding_indexed","configuration":{"chunk_shape":[2,3],"codecs":["bytes"],"index_codecs":[{"name":"bytes","configuration":{"endian":"little"}}]}}]}

> {"op":"reopen","path":"/b","order":"C"}
> {"op":"write_box","path":"/b","box":[[8,10],[6,9]],"cells":[0,0,0,0,0,0]}
< {"done":true}
> {"op":"read_box","path":"/b","box":[[9,11],[6,8]]}
< {"cells":[0,0,7,8]}

after:
  a/c/0 = 0102 0304 0000000000000000 0200000000000000 0200000000000000 0200000000000000
  a/c/1 = 0506 0000000000000000 0200000000000000
  a/zarr.json = $stored{"shape":[6],"chunk_grid":{"name":"rectilinear","configuration":{"kind":"inline","chunk_shapes":[[4,2]]}},"codecs":[{"name":"sharding_indexed","configuration":{"chunk_shape":[2],"codecs":["bytes"],"index_codecs":[{"name":"bytes","configuration":{"endian":"little"}}]}}]}
  b/c/1/1 = 000000000009 0000000000000000 0600000000000000 ffffffffffffffff ffffffffffffffff
  b/c/2/2 = 0708090a0b0c ffffffffffffffff ffffffffffffffff 0000000000000000 0600000000000000
  b/zarr.json = $stored{"shape":[6,6],"chunk_grid":{"name":"rectilinear","configuration":{"kind":"inline","chunk_shapes":[[4,4,4],[3,3,3]]}},"codecs":[{"name":"sharding_indexed","configuration":{"chunk_shape":[2,3],"codecs":["bytes"],"index_codecs":[{"name":"bytes","configuration":{"endian":"little"}}]}}]}
