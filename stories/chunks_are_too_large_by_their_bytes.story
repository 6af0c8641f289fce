Chunks and boxes of 2^63 bytes are too large, however few cells these are.

# Chunks of 2^60 cells of 8 bytes.
> {"op":"create","path":"/a","document":$zeros{"shape":[18446744073709551615],"data_type":"int64","chunk_grid":{"name":"regular","configuration":{"chunk_shape":[1152921504606846976]}},"codecs":[{"name":"bytes","configuration":{"endian":"little"}}]}}
< {"done":true}
> {"op":"read_box","path":"/a","box":[[0,1]]}
> {"op":"read_chunk","path":"/a","chunk":[0]}
> {"op":"write_box","path":"/a","box":[[0,1]],"cells":[1]}
> {"op":"erase_chunks","path":"/a","box":[[0,1]]}
< {"applied":0,"refused":"Size"}
> {"op":"write_box","path":"/a","box":[[0,1]],"cells":[true]}
< {"applied":0,"refused":"Data"}
> {"op":"read_box","path":"/a","box":[[1,1]]}
< {"cells":[]}
# One cell less in each chunk.
> {"op":"create","path":"/b","document":$zeros{"shape":[18446744073709551615],"data_type":"int64","chunk_grid":{"name":"regular","configuration":{"chunk_shape":[1152921504606846975]}},"fill_value":-3,"codecs":[{"name":"bytes","configuration":{"endian":"little"}}]}}
< {"done":true}
> {"op":"read_box","path":"/b","box":[[0,1]]}
> {"op":"read_box","path":"/b","box":[[1152921504606846975,1152921504606846976]]}
< {"cells":[-3]}
> {"op":"read_box","path":"/b","box":[[0,1152921504606846976]]}
< {"applied":0,"refused":"Size"}
> {"op":"erase_chunks","path":"/b","box":[[0,2]]}
< {"done":true}
# Chunks of 2^62 cells of 2 bytes without a byte order, which don't fit their codec either.
> {"op":"create","path":"/c","document":$zeros{"shape":[4611686018427387904],"data_type":"uint16","chunk_grid":{"name":"regular","configuration":{"chunk_shape":[4611686018427387904]}}}}
< {"done":true}
> {"op":"write_box","path":"/c","box":[[0,1]],"cells":[1]}
> {"op":"read_box","path":"/c","box":[[0,1]]}
< {"applied":0,"refused":"Size"}
# A chunk of 2^61 cells of 8 bytes that is a shard, of which nothing is stored.
> {"op":"create","path":"/d","document":$shard{"shape":[2305843009213693952],"data_type":"uint64","chunk_grid":{"name":"regular","configuration":{"chunk_shape":[2305843009213693952]}},"codecs":[{"name":"sharding_indexed","configuration":{"chunk_shape":[1152921504606846976],"codecs":[{"name":"bytes","configuration":{"endian":"little"}}],"index_codecs":[{"name":"bytes","configuration":{"endian":"little"}}]}}]}}
< {"done":true}
> {"op":"read_box","path":"/d","box":[[0,1]]}
> {"op":"read_box","path":"/d","box":[[0,2305843009213693952]]}
> {"op":"read_chunk","path":"/d","chunk":[0]}
< {"applied":0,"refused":"Size"}

after:
  a/zarr.json = $stored{"shape":[18446744073709551615],"data_type":"int64","chunk_grid":{"name":"regular","configuration":{"chunk_shape":[1152921504606846976]}},"codecs":[{"name":"bytes","configuration":{"endian":"little"}}]}
  b/zarr.json = $stored{"shape":[18446744073709551615],"data_type":"int64","chunk_grid":{"name":"regular","configuration":{"chunk_shape":[1152921504606846975]}},"fill_value":-3,"codecs":[{"name":"bytes","configuration":{"endian":"little"}}]}
  c/zarr.json = $stored{"shape":[4611686018427387904],"data_type":"uint16","chunk_grid":{"name":"regular","configuration":{"chunk_shape":[4611686018427387904]}}}
  d/zarr.json = $stored_shard{"shape":[2305843009213693952],"data_type":"uint64","chunk_grid":{"name":"regular","configuration":{"chunk_shape":[2305843009213693952]}},"codecs":[{"name":"sharding_indexed","configuration":{"chunk_shape":[1152921504606846976],"codecs":[{"name":"bytes","configuration":{"endian":"little"}}],"index_codecs":[{"name":"bytes","configuration":{"endian":"little"}}]}}]}
