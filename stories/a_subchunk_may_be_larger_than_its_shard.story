A subchunk may be larger than its shard: it is then the whole shard.

> {"op":"create","path":"/a","document":$zeros{"shape":[3],"chunk_grid":{"name":"regular","configuration":{"chunk_shape":[3]}},"codecs":[{"name":"sharding_indexed","configuration":{"chunk_shape":[4],"codecs":["bytes"],"index_codecs":[{"name":"bytes","configuration":{"endian":"little"}}]}}]},"order":"C"}
> {"op":"create","path":"/w","document":$zeros{"shape":[2,3],"chunk_grid":{"name":"regular","configuration":{"chunk_shape":[2,3]}},"codecs":[{"name":"sharding_indexed","configuration":{"chunk_shape":[4,2],"codecs":["bytes"],"index_codecs":[{"name":"bytes","configuration":{"endian":"little"}}]}}]},"order":"C"}
> {"op":"create","path":"/g","document":$zeros{"shape":[4],"chunk_grid":{"name":"regular","configuration":{"chunk_shape":[4]}},"codecs":[{"name":"sharding_indexed","configuration":{"chunk_shape":[2],"codecs":[{"name":"sharding_indexed","configuration":{"chunk_shape":[4],"codecs":["bytes"],"index_codecs":[{"name":"bytes","configuration":{"endian":"little"}}]}}],"index_codecs":[{"name":"bytes","configuration":{"endian":"little"}}]}}]},"order":"C"}
> {"op":"create","path":"/h","document":$zeros{"shape":[3],"chunk_grid":{"name":"regular","configuration":{"chunk_shape":[3]}},"codecs":[{"name":"sharding_indexed","configuration":{"chunk_shape":[18446744073709551615],"codecs":[{"name":"sharding_indexed","configuration":{"chunk_shape":[18446744073709551615],"codecs":["bytes"],"index_codecs":[{"name":"bytes","configuration":{"endian":"little"}}]}}],"index_codecs":[{"name":"bytes","configuration":{"endian":"little"}}]}}]},"order":"C"}
< {"done":true}
> {"op":"write_chunk","path":"/a","chunk":[0],"cells":[5,6,7]}
> {"op":"write_chunk","path":"/w","chunk":[0,0],"cells":[1,2,3,4,5,6]}
> {"op":"write_chunk","path":"/g","chunk":[0],"cells":[1,2,3,4]}
> {"op":"write_chunk","path":"/h","chunk":[0],"cells":[5,6,7]}
< {"done":true}
> {"op":"read_chunk","path":"/a","chunk":[0]}
< {"cells":[5,6,7]}
> {"op":"read_box","path":"/a","box":[[1,2]]}
< {"cells":[6]}
> {"op":"read_box","path":"/w","box":[[0,2],[1,3]]}
< {"cells":[2,3,5,6]}
> {"op":"read_box","path":"/g","box":[[1,4]]}
< {"cells":[2,3,4]}
> {"op":"read_box","path":"/h","box":[[1,3]]}
< {"cells":[6,7]}

after:
  a/c/0 = 050607 0000000000000000 0300000000000000
  a/zarr.json = $stored{"shape":[3],"chunk_grid":{"name":"regular","configuration":{"chunk_shape":[3]}},"codecs":[{"name":"sharding_indexed","configuration":{"chunk_shape":[4],"codecs":["bytes"],"index_codecs":[{"name":"bytes","configuration":{"endian":"little"}}]}}]}
  g/c/0 = 0102 0000000000000000 0200000000000000 0304 0000000000000000 0200000000000000 0000000000000000 1200000000000000 1200000000000000 1200000000000000
  g/zarr.json = $stored{"shape":[4],"chunk_grid":{"name":"regular","configuration":{"chunk_shape":[4]}},"codecs":[{"name":"sharding_indexed","configuration":{"chunk_shape":[2],"codecs":[{"name":"sharding_indexed","configuration":{"chunk_shape":[4],"codecs":["bytes"],"index_codecs":[{"name":"bytes","configuration":{"endian":"little"}}]}}],"index_codecs":[{"name":"bytes","configuration":{"endian":"little"}}]}}]}
  h/c/0 = 050607 0000000000000000 0300000000000000 0000000000000000 1300000000000000
  h/zarr.json = $stored{"shape":[3],"chunk_grid":{"name":"regular","configuration":{"chunk_shape":[3]}},"codecs":[{"name":"sharding_indexed","configuration":{"chunk_shape":[18446744073709551615],"codecs":[{"name":"sharding_indexed","configuration":{"chunk_shape":[18446744073709551615],"codecs":["bytes"],"index_codecs":[{"name":"bytes","configuration":{"endian":"little"}}]}}],"index_codecs":[{"name":"bytes","configuration":{"endian":"little"}}]}}]}
  w/c/0/0 = 01020405 0306 0000000000000000 0400000000000000 0400000000000000 0200000000000000
  w/zarr.json = $stored{"shape":[2,3],"chunk_grid":{"name":"regular","configuration":{"chunk_shape":[2,3]}},"codecs":[{"name":"sharding_indexed","configuration":{"chunk_shape":[4,2],"codecs":["bytes"],"index_codecs":[{"name":"bytes","configuration":{"endian":"little"}}]}}]}

> {"op":"reopen","path":"/a","order":"C"}
> {"op":"reopen","path":"/g","order":"C"}
> {"op":"reopen","path":"/h","order":"C"}
> {"op":"write_box","path":"/a","box":[[1,2]],"cells":[0],"options":{"partial":true}}
> {"op":"write_box","path":"/g","box":[[3,4]],"cells":[9],"options":{"partial":true}}
> {"op":"write_box","path":"/h","box":[[0,2]],"cells":[0,0],"options":{"partial":true}}
< {"done":true}
> {"op":"read_chunk","path":"/a","chunk":[0]}
< {"cells":[5,0,7]}
> {"op":"read_chunk","path":"/g","chunk":[0]}
< {"cells":[1,2,3,9]}
> {"op":"read_chunk","path":"/h","chunk":[0]}
< {"cells":[0,0,7]}

after:
  a/c/0 = 050607 050007 0300000000000000 0300000000000000
  a/zarr.json = $stored{"shape":[3],"chunk_grid":{"name":"regular","configuration":{"chunk_shape":[3]}},"codecs":[{"name":"sharding_indexed","configuration":{"chunk_shape":[4],"codecs":["bytes"],"index_codecs":[{"name":"bytes","configuration":{"endian":"little"}}]}}]}
  g/c/0 = 0102 0000000000000000 0200000000000000 0304 0000000000000000 0200000000000000 0309 0000000000000000 0200000000000000 0000000000000000 1200000000000000 2400000000000000 1200000000000000
  g/zarr.json = $stored{"shape":[4],"chunk_grid":{"name":"regular","configuration":{"chunk_shape":[4]}},"codecs":[{"name":"sharding_indexed","configuration":{"chunk_shape":[2],"codecs":[{"name":"sharding_indexed","configuration":{"chunk_shape":[4],"codecs":["bytes"],"index_codecs":[{"name":"bytes","configuration":{"endian":"little"}}]}}],"index_codecs":[{"name":"bytes","configuration":{"endian":"little"}}]}}]}
  h/c/0 = 050607 0000000000000000 0300000000000000 000007 0000000000000000 0300000000000000 1300000000000000 1300000000000000
  h/zarr.json = $stored{"shape":[3],"chunk_grid":{"name":"regular","configuration":{"chunk_shape":[3]}},"codecs":[{"name":"sharding_indexed","configuration":{"chunk_shape":[18446744073709551615],"codecs":[{"name":"sharding_indexed","configuration":{"chunk_shape":[18446744073709551615],"codecs":["bytes"],"index_codecs":[{"name":"bytes","configuration":{"endian":"little"}}]}}],"index_codecs":[{"name":"bytes","configuration":{"endian":"little"}}]}}]}
  w/c/0/0 = 01020405 0306 0000000000000000 0400000000000000 0400000000000000 0200000000000000
  w/zarr.json = $stored{"shape":[2,3],"chunk_grid":{"name":"regular","configuration":{"chunk_shape":[2,3]}},"codecs":[{"name":"sharding_indexed","configuration":{"chunk_shape":[4,2],"codecs":["bytes"],"index_codecs":[{"name":"bytes","configuration":{"endian":"little"}}]}}]}

> {"op":"reopen","path":"/a","order":"C"}
> {"op":"reopen","path":"/g","order":"C"}
> {"op":"reopen","path":"/h","order":"C"}
< {"done":true}
> {"op":"compact","path":"/a","chunk":[0]}
> {"op":"compact","path":"/g","chunk":[0]}
> {"op":"compact","path":"/h","chunk":[0]}
< {"compacted":true}

after:
  a/c/0 = 050007 0000000000000000 0300000000000000
  a/zarr.json = $stored{"shape":[3],"chunk_grid":{"name":"regular","configuration":{"chunk_shape":[3]}},"codecs":[{"name":"sharding_indexed","configuration":{"chunk_shape":[4],"codecs":["bytes"],"index_codecs":[{"name":"bytes","configuration":{"endian":"little"}}]}}]}
  g/c/0 = 0102 0000000000000000 0200000000000000 0309 0000000000000000 0200000000000000 0000000000000000 1200000000000000 1200000000000000 1200000000000000
  g/zarr.json = $stored{"shape":[4],"chunk_grid":{"name":"regular","configuration":{"chunk_shape":[4]}},"codecs":[{"name":"sharding_indexed","configuration":{"chunk_shape":[2],"codecs":[{"name":"sharding_indexed","configuration":{"chunk_shape":[4],"codecs":["bytes"],"index_codecs":[{"name":"bytes","configuration":{"endian":"little"}}]}}],"index_codecs":[{"name":"bytes","configuration":{"endian":"little"}}]}}]}
  h/c/0 = 000007 0000000000000000 0300000000000000 0000000000000000 1300000000000000
  h/zarr.json = $stored{"shape":[3],"chunk_grid":{"name":"regular","configuration":{"chunk_shape":[3]}},"codecs":[{"name":"sharding_indexed","configuration":{"chunk_shape":[18446744073709551615],"codecs":[{"name":"sharding_indexed","configuration":{"chunk_shape":[18446744073709551615],"codecs":["bytes"],"index_codecs":[{"name":"bytes","configuration":{"endian":"little"}}]}}],"index_codecs":[{"name":"bytes","configuration":{"endian":"little"}}]}}]}
  w/c/0/0 = 01020405 0306 0000000000000000 0400000000000000 0400000000000000 0200000000000000
  w/zarr.json = $stored{"shape":[2,3],"chunk_grid":{"name":"regular","configuration":{"chunk_shape":[2,3]}},"codecs":[{"name":"sharding_indexed","configuration":{"chunk_shape":[4,2],"codecs":["bytes"],"index_codecs":[{"name":"bytes","configuration":{"endian":"little"}}]}}]}
