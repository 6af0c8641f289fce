A chunk that its shards don't fit is read where none is stored, and erased, but not written, compacted or rewritten.

# The last chunk has three cells, in subchunks of two and of one. The codec of subchunks suits two cells alone.
> {"op":"create","path":"/a","document":$zeros{"shape":[7],"chunk_grid":{"name":"regular_bounded","configuration":{"chunk_shape":[4]}},"codecs":[{"name":"sharding_indexed","configuration":{"chunk_shape":[2],"codecs":[{"name":"reshape","configuration":{"shape":[2]}},"bytes"],"index_codecs":[{"name":"bytes","configuration":{"endian":"little"}}]}}]},"order":"C"}
< {"done":true}
> {"op":"write_chunk","path":"/a","chunk":[1],"cells":[5,6,7]}
> {"op":"write_chunk","path":"/a","chunk":[1],"cells":[0,0,0]}
> {"op":"write_box","path":"/a","box":[[6,7]],"cells":[1]}
> {"op":"write_box","path":"/a","box":[[4,6]],"cells":[5,6],"options":{"partial":true}}
< {"applied":0,"refused":"Fit"}
> {"op":"read_chunk","path":"/a","chunk":[1]}
< {"cells":[0,0,0]}
> {"op":"write_box","path":"/a","box":[[3,5]],"cells":[1,2]}
< {"applied":1,"refused":"Fit"}
> {"op":"read_box","path":"/a","box":[[2,6]]}
< {"cells":[0,1,0,0]}
# It has no key, so it is neither compacted nor rewritten.
> {"op":"compact","path":"/a","chunk":[1]}
< {"compacted":false}
> {"op":"rewrite","path":"/a"}
> {"op":"erase_chunks","path":"/a","box":[[1,2]]}
< {"done":true}

after:
  a/c/0 = 0001 ffffffffffffffff ffffffffffffffff 0000000000000000 0200000000000000
  a/zarr.json = $stored{"shape":[7],"chunk_grid":{"name":"regular_bounded","configuration":{"chunk_shape":[4]}},"codecs":[{"name":"sharding_indexed","configuration":{"chunk_shape":[2],"codecs":[{"name":"reshape","configuration":{"shape":[2]}},"bytes"],"index_codecs":[{"name":"bytes","configuration":{"endian":"little"}}]}}]}

# Codecs of subchunks that suit three cells and not one, or four and not three; a squeeze that leaves one dimension of a subchunk, where the shard in it has two; subchunks with more dimensions; an index without a byte order, or by a codec that isn't one of numbers; cells without a byte order; a shard in a shard with a subchunk that isn't suited; and optional cells.
before:
  g/c/0 = 01

> {"op":"create","path":"/b","document":$zeros{"shape":[4],"chunk_grid":{"name":"regular","configuration":{"chunk_shape":[4]}},"codecs":[{"name":"sharding_indexed","configuration":{"chunk_shape":[3],"codecs":[{"name":"reshape","configuration":{"shape":[3]}},"bytes"],"index_codecs":[{"name":"bytes","configuration":{"endian":"little"}}]}}]}}
> {"op":"create","path":"/h","document":$zeros{"shape":[3],"chunk_grid":{"name":"regular","configuration":{"chunk_shape":[3]}},"codecs":[{"name":"sharding_indexed","configuration":{"chunk_shape":[4],"codecs":[{"name":"reshape","configuration":{"shape":[4]}},"bytes"],"index_codecs":[{"name":"bytes","configuration":{"endian":"little"}}]}}]}}
> {"op":"create","path":"/s","document":$zeros{"shape":[3,2],"chunk_grid":{"name":"regular","configuration":{"chunk_shape":[3,2]}},"codecs":[{"name":"sharding_indexed","configuration":{"chunk_shape":[2,2],"codecs":["squeeze",{"name":"sharding_indexed","configuration":{"chunk_shape":[1,2],"codecs":["bytes"],"index_codecs":[{"name":"bytes","configuration":{"endian":"little"}}]}}],"index_codecs":[{"name":"bytes","configuration":{"endian":"little"}}]}}]}}
> {"op":"create","path":"/c","document":$zeros{"shape":[4],"chunk_grid":{"name":"regular","configuration":{"chunk_shape":[4]}},"codecs":[{"name":"sharding_indexed","configuration":{"chunk_shape":[2,2],"codecs":["bytes"],"index_codecs":[{"name":"bytes","configuration":{"endian":"little"}}]}}]}}
> {"op":"create","path":"/d","document":$zeros{"shape":[4],"chunk_grid":{"name":"regular","configuration":{"chunk_shape":[4]}},"codecs":[{"name":"sharding_indexed","configuration":{"chunk_shape":[2],"codecs":["bytes"],"index_codecs":["bytes"]}}]}}
> {"op":"create","path":"/e","document":$zeros{"shape":[4],"chunk_grid":{"name":"regular","configuration":{"chunk_shape":[4]}},"codecs":[{"name":"sharding_indexed","configuration":{"chunk_shape":[2],"codecs":["bytes"],"index_codecs":[{"name":"vlen","configuration":{"index_codecs":[{"name":"bytes","configuration":{"endian":"little"}}],"data_codecs":["bytes"],"index_data_type":"uint32"}}]}}]}}
> {"op":"create","path":"/f","document":$zeros{"shape":[4],"data_type":"uint16","chunk_grid":{"name":"regular","configuration":{"chunk_shape":[4]}},"codecs":[{"name":"sharding_indexed","configuration":{"chunk_shape":[2],"codecs":["bytes"],"index_codecs":[{"name":"bytes","configuration":{"endian":"little"}}]}}]}}
> {"op":"create","path":"/g","document":$zeros{"shape":[4],"chunk_grid":{"name":"regular","configuration":{"chunk_shape":[4]}},"codecs":[{"name":"sharding_indexed","configuration":{"chunk_shape":[3],"codecs":[{"name":"sharding_indexed","configuration":{"chunk_shape":[2],"codecs":[{"name":"reshape","configuration":{"shape":[2]}},"bytes"],"index_codecs":[{"name":"bytes","configuration":{"endian":"little"}}]}}],"index_codecs":[{"name":"bytes","configuration":{"endian":"little"}}]}}]}}
> {"op":"create","path":"/o","document":$zeros{"shape":[4],"data_type":{"name":"zarrs.optional","configuration":{"name":"uint8"}},"chunk_grid":{"name":"regular","configuration":{"chunk_shape":[4]}},"codecs":[{"name":"sharding_indexed","configuration":{"chunk_shape":[2],"codecs":[{"name":"zarrs.optional","configuration":{"mask_codecs":["packbits"],"data_codecs":["bytes"]}}],"index_codecs":[{"name":"bytes","configuration":{"endian":"little"}}]}}],"fill_value":null}}
< {"done":true}
> {"op":"write_chunk","path":"/b","chunk":[0],"cells":[1,2,3,4]}
> {"op":"write_chunk","path":"/c","chunk":[0],"cells":[1,2,3,4]}
> {"op":"write_chunk","path":"/d","chunk":[0],"cells":[1,2,3,4]}
> {"op":"write_chunk","path":"/e","chunk":[0],"cells":[1,2,3,4]}
> {"op":"write_chunk","path":"/f","chunk":[0],"cells":[1,2,3,4]}
> {"op":"write_chunk","path":"/g","chunk":[0],"cells":[1,2,3,4]}
> {"op":"write_chunk","path":"/h","chunk":[0],"cells":[1,2,3]}
> {"op":"write_chunk","path":"/s","chunk":[0,0],"cells":[1,2,3,4,5,6]}
> {"op":"write_box","path":"/b","box":[[0,1]],"cells":[0]}
> {"op":"write_box","path":"/c","box":[[0,1]],"cells":[0]}
> {"op":"write_box","path":"/d","box":[[0,1]],"cells":[0]}
> {"op":"write_box","path":"/e","box":[[0,1]],"cells":[0]}
> {"op":"write_box","path":"/f","box":[[0,1]],"cells":[0]}
> {"op":"write_box","path":"/g","box":[[0,1]],"cells":[0]}
> {"op":"write_box","path":"/h","box":[[0,1]],"cells":[0]}
> {"op":"write_box","path":"/s","box":[[2,3],[0,2]],"cells":[5,6]}
> {"op":"write_chunk","path":"/o","chunk":[0],"cells":[null,[1],[2],[3]]}
# This one has a key.
> {"op":"read_box","path":"/g","box":[[0,1]]}
> {"op":"compact","path":"/g","chunk":[0]}
> {"op":"rewrite","path":"/g"}
< {"applied":0,"refused":"Fit"}
> {"op":"read_box","path":"/b","box":[[0,4]]}
> {"op":"read_box","path":"/c","box":[[0,4]]}
> {"op":"read_box","path":"/d","box":[[0,4]]}
> {"op":"read_box","path":"/e","box":[[0,4]]}
> {"op":"read_box","path":"/f","box":[[0,4]]}
< {"cells":[0,0,0,0]}
> {"op":"read_chunk","path":"/h","chunk":[0]}
< {"cells":[0,0,0]}
> {"op":"read_chunk","path":"/s","chunk":[0,0]}
< {"cells":[0,0,0,0,0,0]}
> {"op":"read_box","path":"/o","box":[[0,2]]}
< {"cells":[null,null]}
> {"op":"erase_chunks","path":"/g","box":[[0,1]]}
< {"done":true}

after:
  a/c/0 = 0001 ffffffffffffffff ffffffffffffffff 0000000000000000 0200000000000000
  a/zarr.json = $stored{"shape":[7],"chunk_grid":{"name":"regular_bounded","configuration":{"chunk_shape":[4]}},"codecs":[{"name":"sharding_indexed","configuration":{"chunk_shape":[2],"codecs":[{"name":"reshape","configuration":{"shape":[2]}},"bytes"],"index_codecs":[{"name":"bytes","configuration":{"endian":"little"}}]}}]}
  b/zarr.json = $stored{"shape":[4],"chunk_grid":{"name":"regular","configuration":{"chunk_shape":[4]}},"codecs":[{"name":"sharding_indexed","configuration":{"chunk_shape":[3],"codecs":[{"name":"reshape","configuration":{"shape":[3]}},"bytes"],"index_codecs":[{"name":"bytes","configuration":{"endian":"little"}}]}}]}
  c/zarr.json = $stored{"shape":[4],"chunk_grid":{"name":"regular","configuration":{"chunk_shape":[4]}},"codecs":[{"name":"sharding_indexed","configuration":{"chunk_shape":[2,2],"codecs":["bytes"],"index_codecs":[{"name":"bytes","configuration":{"endian":"little"}}]}}]}
  d/zarr.json = $stored{"shape":[4],"chunk_grid":{"name":"regular","configuration":{"chunk_shape":[4]}},"codecs":[{"name":"sharding_indexed","configuration":{"chunk_shape":[2],"codecs":["bytes"],"index_codecs":["bytes"]}}]}
  e/zarr.json = $stored{"shape":[4],"chunk_grid":{"name":"regular","configuration":{"chunk_shape":[4]}},"codecs":[{"name":"sharding_indexed","configuration":{"chunk_shape":[2],"codecs":["bytes"],"index_codecs":[{"name":"vlen","configuration":{"index_codecs":[{"name":"bytes","configuration":{"endian":"little"}}],"data_codecs":["bytes"],"index_data_type":"uint32"}}]}}]}
  f/zarr.json = $stored{"shape":[4],"data_type":"uint16","chunk_grid":{"name":"regular","configuration":{"chunk_shape":[4]}},"codecs":[{"name":"sharding_indexed","configuration":{"chunk_shape":[2],"codecs":["bytes"],"index_codecs":[{"name":"bytes","configuration":{"endian":"little"}}]}}]}
  g/zarr.json = $stored{"shape":[4],"chunk_grid":{"name":"regular","configuration":{"chunk_shape":[4]}},"codecs":[{"name":"sharding_indexed","configuration":{"chunk_shape":[3],"codecs":[{"name":"sharding_indexed","configuration":{"chunk_shape":[2],"codecs":[{"name":"reshape","configuration":{"shape":[2]}},"bytes"],"index_codecs":[{"name":"bytes","configuration":{"endian":"little"}}]}}],"index_codecs":[{"name":"bytes","configuration":{"endian":"little"}}]}}]}
  h/zarr.json = $stored{"shape":[3],"chunk_grid":{"name":"regular","configuration":{"chunk_shape":[3]}},"codecs":[{"name":"sharding_indexed","configuration":{"chunk_shape":[4],"codecs":[{"name":"reshape","configuration":{"shape":[4]}},"bytes"],"index_codecs":[{"name":"bytes","configuration":{"endian":"little"}}]}}]}
  o/zarr.json = $stored{"shape":[4],"data_type":{"name":"zarrs.optional","configuration":{"name":"uint8"}},"chunk_grid":{"name":"regular","configuration":{"chunk_shape":[4]}},"codecs":[{"name":"sharding_indexed","configuration":{"chunk_shape":[2],"codecs":[{"name":"zarrs.optional","configuration":{"mask_codecs":["packbits"],"data_codecs":["bytes"]}}],"index_codecs":[{"name":"bytes","configuration":{"endian":"little"}}]}}],"fill_value":null}
  s/zarr.json = $stored{"shape":[3,2],"chunk_grid":{"name":"regular","configuration":{"chunk_shape":[3,2]}},"codecs":[{"name":"sharding_indexed","configuration":{"chunk_shape":[2,2],"codecs":["squeeze",{"name":"sharding_indexed","configuration":{"chunk_shape":[1,2],"codecs":["bytes"],"index_codecs":[{"name":"bytes","configuration":{"endian":"little"}}]}}],"index_codecs":[{"name":"bytes","configuration":{"endian":"little"}}]}}]}
