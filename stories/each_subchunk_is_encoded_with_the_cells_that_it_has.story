The codecs of a shard's subchunks get each of them with the cells that it has, also where it is cut short: numbers in their order, transposed, reversed, strings, bits, or as a shard of its own.

> {"op":"create","path":"/i","document":$zeros{"shape":[3],"data_type":"int16","chunk_grid":{"name":"regular","configuration":{"chunk_shape":[3]}},"codecs":[{"name":"sharding_indexed","configuration":{"chunk_shape":[2],"codecs":[{"name":"bytes","configuration":{"endian":"little"}}],"index_codecs":[{"name":"bytes","configuration":{"endian":"little"}}],"index_location":"start"}}]},"order":"C"}
> {"op":"create","path":"/t","document":$zeros{"shape":[2,3],"chunk_grid":{"name":"regular","configuration":{"chunk_shape":[2,3]}},"codecs":[{"name":"transpose","configuration":{"order":[1,0]}},{"name":"sharding_indexed","configuration":{"chunk_shape":[2,2],"codecs":["bytes"],"index_codecs":[{"name":"bytes","configuration":{"endian":"little"}}]}}]},"order":"C"}
> {"op":"create","path":"/u","document":$zeros{"shape":[3,3],"chunk_grid":{"name":"regular","configuration":{"chunk_shape":[3,3]}},"codecs":[{"name":"sharding_indexed","configuration":{"chunk_shape":[2,2],"codecs":[{"name":"transpose","configuration":{"order":[1,0]}},"bytes"],"index_codecs":[{"name":"bytes","configuration":{"endian":"little"}}]}}]},"order":"C"}
> {"op":"create","path":"/r","document":$zeros{"shape":[3],"chunk_grid":{"name":"regular","configuration":{"chunk_shape":[3]}},"codecs":[{"name":"sharding_indexed","configuration":{"chunk_shape":[2],"codecs":["bytes","x-reverse"],"index_codecs":[{"name":"bytes","configuration":{"endian":"little"}}]}},"x-reverse"]},"order":"C"}
> {"op":"create","path":"/v","document":$zeros{"shape":[3],"data_type":"string","chunk_grid":{"name":"regular","configuration":{"chunk_shape":[3]}},"codecs":[{"name":"sharding_indexed","configuration":{"chunk_shape":[2],"codecs":[{"name":"vlen","configuration":{"index_codecs":[{"name":"bytes","configuration":{"endian":"little"}}],"data_codecs":["bytes"],"index_data_type":"uint32"}}],"index_codecs":[{"name":"bytes","configuration":{"endian":"little"}}]}}],"fill_value":""},"order":"C"}
> {"op":"create","path":"/p","document":$zeros{"shape":[3],"data_type":"bool","chunk_grid":{"name":"regular","configuration":{"chunk_shape":[3]}},"codecs":[{"name":"sharding_indexed","configuration":{"chunk_shape":[2],"codecs":[{"name":"packbits","configuration":{"padding_encoding":"first_byte"}}],"index_codecs":[{"name":"bytes","configuration":{"endian":"little"}}]}}],"fill_value":false},"order":"C"}
> {"op":"create","path":"/n","document":$zeros{"shape":[5],"chunk_grid":{"name":"regular","configuration":{"chunk_shape":[5]}},"codecs":[{"name":"sharding_indexed","configuration":{"chunk_shape":[3],"codecs":[{"name":"sharding_indexed","configuration":{"chunk_shape":[2],"codecs":["bytes"],"index_codecs":[{"name":"bytes","configuration":{"endian":"little"}}]}}],"index_codecs":[{"name":"bytes","configuration":{"endian":"little"}}]}}]},"order":"C"}
< {"done":true}
> {"op":"write_chunk","path":"/i","chunk":[0],"cells":[1,-2,3]}
> {"op":"write_chunk","path":"/t","chunk":[0,0],"cells":[1,2,3,4,5,6]}
> {"op":"write_chunk","path":"/u","chunk":[0,0],"cells":[1,2,3,4,5,6,7,8,9]}
> {"op":"write_chunk","path":"/r","chunk":[0],"cells":[1,2,3]}
> {"op":"write_chunk","path":"/v","chunk":[0],"cells":["a","","bc"]}
> {"op":"write_chunk","path":"/p","chunk":[0],"cells":[true,false,true]}
> {"op":"write_chunk","path":"/n","chunk":[0],"cells":[1,2,3,4,5]}
< {"done":true}
> {"op":"read_box","path":"/i","box":[[1,3]]}
< {"cells":[-2,3]}
> {"op":"read_box","path":"/t","box":[[0,2],[1,3]]}
< {"cells":[2,3,5,6]}
> {"op":"read_box","path":"/u","box":[[1,3],[1,3]]}
< {"cells":[5,6,8,9]}
> {"op":"read_box","path":"/r","box":[[1,3]]}
< {"cells":[2,3]}
> {"op":"read_box","path":"/v","box":[[0,3]]}
< {"cells":["a","","bc"]}
> {"op":"read_box","path":"/p","box":[[1,3]]}
< {"cells":[false,true]}
> {"op":"read_box","path":"/n","box":[[2,5]]}
< {"cells":[3,4,5]}

# A number of int16 has two bytes. Of the bits of a subchunk six are left over in a byte that has two of them, and seven in one that has one.
after:
  i/c/0 = 2000000000000000 0400000000000000 2400000000000000 0200000000000000 0100feff 0300
  i/zarr.json = $stored{"shape":[3],"data_type":"int16","chunk_grid":{"name":"regular","configuration":{"chunk_shape":[3]}},"codecs":[{"name":"sharding_indexed","configuration":{"chunk_shape":[2],"codecs":[{"name":"bytes","configuration":{"endian":"little"}}],"index_codecs":[{"name":"bytes","configuration":{"endian":"little"}}],"index_location":"start"}}]}
  n/c/0 = 010203 0000000000000000 0200000000000000 0200000000000000 0100000000000000 0405 0000000000000000 0200000000000000 0000000000000000 2300000000000000 2300000000000000 1200000000000000
  n/zarr.json = $stored{"shape":[5],"chunk_grid":{"name":"regular","configuration":{"chunk_shape":[5]}},"codecs":[{"name":"sharding_indexed","configuration":{"chunk_shape":[3],"codecs":[{"name":"sharding_indexed","configuration":{"chunk_shape":[2],"codecs":["bytes"],"index_codecs":[{"name":"bytes","configuration":{"endian":"little"}}]}}],"index_codecs":[{"name":"bytes","configuration":{"endian":"little"}}]}}]}
  p/c/0 = 0601 0701 0000000000000000 0200000000000000 0200000000000000 0200000000000000
  p/zarr.json = $stored{"shape":[3],"data_type":"bool","chunk_grid":{"name":"regular","configuration":{"chunk_shape":[3]}},"codecs":[{"name":"sharding_indexed","configuration":{"chunk_shape":[2],"codecs":[{"name":"packbits","configuration":{"padding_encoding":"first_byte"}}],"index_codecs":[{"name":"bytes","configuration":{"endian":"little"}}]}}],"fill_value":false}
  r/c/0 = 0000000000000001 0000000000000002 0000000000000002 0000000000000000 03 0102
  r/zarr.json = $stored{"shape":[3],"chunk_grid":{"name":"regular","configuration":{"chunk_shape":[3]}},"codecs":[{"name":"sharding_indexed","configuration":{"chunk_shape":[2],"codecs":["bytes","x-reverse"],"index_codecs":[{"name":"bytes","configuration":{"endian":"little"}}]}},"x-reverse"]}
  t/c/0/0 = 01040205 0306 0000000000000000 0400000000000000 0400000000000000 0200000000000000
  t/zarr.json = $stored{"shape":[2,3],"chunk_grid":{"name":"regular","configuration":{"chunk_shape":[2,3]}},"codecs":[{"name":"transpose","configuration":{"order":[1,0]}},{"name":"sharding_indexed","configuration":{"chunk_shape":[2,2],"codecs":["bytes"],"index_codecs":[{"name":"bytes","configuration":{"endian":"little"}}]}}]}
  u/c/0/0 = 01040205 0306 0708 09 0000000000000000 0400000000000000 0400000000000000 0200000000000000 0600000000000000 0200000000000000 0800000000000000 0100000000000000
  u/zarr.json = $stored{"shape":[3,3],"chunk_grid":{"name":"regular","configuration":{"chunk_shape":[3,3]}},"codecs":[{"name":"sharding_indexed","configuration":{"chunk_shape":[2,2],"codecs":[{"name":"transpose","configuration":{"order":[1,0]}},"bytes"],"index_codecs":[{"name":"bytes","configuration":{"endian":"little"}}]}}]}
  v/c/0 = 0c00000000000000 00000000 01000000 01000000 61 0800000000000000 00000000 02000000 6263 0000000000000000 1500000000000000 1500000000000000 1200000000000000
  v/zarr.json = $stored{"shape":[3],"data_type":"string","chunk_grid":{"name":"regular","configuration":{"chunk_shape":[3]}},"codecs":[{"name":"sharding_indexed","configuration":{"chunk_shape":[2],"codecs":[{"name":"vlen","configuration":{"index_codecs":[{"name":"bytes","configuration":{"endian":"little"}}],"data_codecs":["bytes"],"index_data_type":"uint32"}}],"index_codecs":[{"name":"bytes","configuration":{"endian":"little"}}]}}],"fill_value":""}
