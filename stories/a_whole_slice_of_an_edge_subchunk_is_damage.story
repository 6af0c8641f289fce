A slice with the cells of a whole subchunk is damage where the subchunk is cut short, and so is an index with fewer pairs. Other subchunks are read and written.

before:
  a/zarr.json = $stored{"shape":[7],"chunk_grid":{"name":"regular_bounded","configuration":{"chunk_shape":[4]}},"codecs":[{"name":"sharding_indexed","configuration":{"chunk_shape":[2],"codecs":["bytes"],"index_codecs":[{"name":"bytes","configuration":{"endian":"little"}}]}}]}
  a/c/1 = 0506 0708 0000000000000000 0200000000000000 0200000000000000 0200000000000000
  b/zarr.json = $stored{"shape":[7],"chunk_grid":{"name":"regular_bounded","configuration":{"chunk_shape":[4]}},"codecs":[{"name":"sharding_indexed","configuration":{"chunk_shape":[2],"codecs":["bytes"],"index_codecs":[{"name":"bytes","configuration":{"endian":"little"}}]}}]}
  b/c/1 = 0506 0000000000000000 0200000000000000

> {"op":"reopen","path":"/a","order":"C"}
> {"op":"reopen","path":"/b","order":"C"}
< {"done":true}
> {"op":"read_box","path":"/a","box":[[4,6]]}
< {"cells":[5,6]}
> {"op":"read_box","path":"/a","box":[[6,7]]}
> {"op":"read_chunk","path":"/a","chunk":[1]}
> {"op":"write_box","path":"/a","box":[[6,7]],"cells":[9],"options":{"partial":true}}
> {"op":"write_box","path":"/a","box":[[4,5]],"cells":[9]}
> {"op":"rewrite","path":"/a"}
> {"op":"read_box","path":"/b","box":[[4,5]]}
> {"op":"compact","path":"/b","chunk":[1]}
> {"op":"write_box","path":"/b","box":[[4,5]],"cells":[9],"options":{"partial":true}}
< {"applied":0,"refused":"Damage"}
# A compaction looks at no slice.
> {"op":"compact","path":"/a","chunk":[1]}
< {"compacted":false}
> {"op":"write_box","path":"/a","box":[[4,5]],"cells":[9],"options":{"partial":true}}
> {"op":"write_chunk","path":"/b","chunk":[1],"cells":[5,6,7]}
< {"done":true}
> {"op":"read_box","path":"/a","box":[[3,6]]}
< {"cells":[0,9,6]}

after:
  a/c/1 = 0506 0708 0906 0400000000000000 0200000000000000 0200000000000000 0200000000000000
  a/zarr.json = $stored{"shape":[7],"chunk_grid":{"name":"regular_bounded","configuration":{"chunk_shape":[4]}},"codecs":[{"name":"sharding_indexed","configuration":{"chunk_shape":[2],"codecs":["bytes"],"index_codecs":[{"name":"bytes","configuration":{"endian":"little"}}]}}]}
  b/c/1 = 0506 07 0000000000000000 0200000000000000 0200000000000000 0100000000000000
  b/zarr.json = $stored{"shape":[7],"chunk_grid":{"name":"regular_bounded","configuration":{"chunk_shape":[4]}},"codecs":[{"name":"sharding_indexed","configuration":{"chunk_shape":[2],"codecs":["bytes"],"index_codecs":[{"name":"bytes","configuration":{"endian":"little"}}]}}]}
