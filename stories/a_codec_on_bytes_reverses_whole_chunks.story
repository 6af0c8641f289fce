The codec x-reverse after bytes reverses the bytes of each chunk, once for each time that it stands there.

> {"op":"create","path":"/a","document":$zeros{"shape":[3],"data_type":"uint16","chunk_grid":{"name":"regular","configuration":{"chunk_shape":[2]}},"codecs":[{"name":"bytes","configuration":{"endian":"little"}},"x-reverse"]}}
> {"op":"write_box","path":"/a","box":[[0,3]],"cells":[1,2,3]}
> {"op":"create","path":"/b","document":$zeros{"shape":[3],"data_type":"uint16","chunk_grid":{"name":"regular","configuration":{"chunk_shape":[2]}},"codecs":[{"name":"bytes","configuration":{"endian":"big"}},"x-reverse"]}}
> {"op":"write_box","path":"/b","box":[[0,3]],"cells":[1,2,3]}
> {"op":"create","path":"/c","document":$zeros{"shape":[3],"data_type":"uint16","chunk_grid":{"name":"regular","configuration":{"chunk_shape":[2]}},"codecs":[{"name":"bytes","configuration":{"endian":"little"}},"x-reverse",{"name":"x-reverse"}]}}
> {"op":"write_box","path":"/c","box":[[0,3]],"cells":[1,2,3]}
< {"done":true}
> {"op":"read_box","path":"/a","box":[[1,3]]}
> {"op":"read_box","path":"/b","box":[[1,3]]}
> {"op":"read_box","path":"/c","box":[[1,3]]}
< {"cells":[2,3]}
# A part of a chunk.
> {"op":"write_box","path":"/a","box":[[1,2]],"cells":[9]}
< {"done":true}
> {"op":"read_chunk","path":"/a","chunk":[0]}
< {"cells":[1,9]}

after:
  a/c/0 = 00 09 00 01
  a/c/1 = 00 00 00 03
  a/zarr.json = $stored{"shape":[3],"data_type":"uint16","chunk_grid":{"name":"regular","configuration":{"chunk_shape":[2]}},"codecs":[{"name":"bytes","configuration":{"endian":"little"}},"x-reverse"]}
  b/c/0 = 02 00 01 00
  b/c/1 = 00 00 03 00
  b/zarr.json = $stored{"shape":[3],"data_type":"uint16","chunk_grid":{"name":"regular","configuration":{"chunk_shape":[2]}},"codecs":[{"name":"bytes","configuration":{"endian":"big"}},"x-reverse"]}
  c/c/0 = 01 00 02 00
  c/c/1 = 03 00 00 00
  c/zarr.json = $stored{"shape":[3],"data_type":"uint16","chunk_grid":{"name":"regular","configuration":{"chunk_shape":[2]}},"codecs":[{"name":"bytes","configuration":{"endian":"little"}},"x-reverse","x-reverse"]}

# Values of a wrong length are damage through it too.
before:
  a/c/0 = 00 09 01

> {"op":"reopen","path":"/a"}
< {"done":true}
> {"op":"read_chunk","path":"/a","chunk":[0]}
> {"op":"write_box","path":"/a","box":[[0,1]],"cells":[1]}
< {"applied":0,"refused":"Damage"}

after: as before
