A stored cell that isn't a value of the data type is damage where it is read, until its whole chunk is written.

before:
  a/c/0 = 01 02
  b/c/0 = 01 02
  c/c/0 = fe 04
  d/c/0 = f8 08
  e/c/0 = 03 04
  f/c/0 = 0f 10
  g/c/0 = 01 00 02

> {"op":"create","path":"/a","document":$zeros{"shape":[2],"data_type":"bool","chunk_grid":{"name":"regular","configuration":{"chunk_shape":[2]}},"fill_value":false}}
> {"op":"create","path":"/b","document":$zeros{"shape":[2],"data_type":"int2","chunk_grid":{"name":"regular","configuration":{"chunk_shape":[2]}}}}
> {"op":"create","path":"/c","document":$zeros{"shape":[2],"data_type":"int2","chunk_grid":{"name":"regular","configuration":{"chunk_shape":[2]}}}}
> {"op":"create","path":"/d","document":$zeros{"shape":[2],"data_type":"int4","chunk_grid":{"name":"regular","configuration":{"chunk_shape":[2]}}}}
> {"op":"create","path":"/e","document":$zeros{"shape":[2],"data_type":"uint2","chunk_grid":{"name":"regular","configuration":{"chunk_shape":[2]}}}}
> {"op":"create","path":"/f","document":$zeros{"shape":[2],"data_type":"uint4","chunk_grid":{"name":"regular","configuration":{"chunk_shape":[2]}}}}
> {"op":"create","path":"/g","document":$zeros{"shape":[2],"data_type":"uint16","chunk_grid":{"name":"regular","configuration":{"chunk_shape":[2]}},"codecs":[{"name":"bytes","configuration":{"endian":"little"}}]}}
< {"done":true}

# The cell beside it is read.
> {"op":"read_box","path":"/a","box":[[0,1]]}
< {"cells":[true]}
> {"op":"read_box","path":"/b","box":[[0,1]]}
< {"cells":[1]}
> {"op":"read_box","path":"/c","box":[[0,1]]}
< {"cells":[-2]}
> {"op":"read_box","path":"/d","box":[[0,1]]}
< {"cells":[-8]}
> {"op":"read_box","path":"/e","box":[[0,1]]}
< {"cells":[3]}
> {"op":"read_box","path":"/f","box":[[0,1]]}
< {"cells":[15]}

> {"op":"read_box","path":"/a","box":[[1,2]]}
> {"op":"read_chunk","path":"/a","chunk":[0]}
> {"op":"read_chunk","path":"/b","chunk":[0]}
> {"op":"read_chunk","path":"/c","chunk":[0]}
> {"op":"read_chunk","path":"/d","chunk":[0]}
> {"op":"read_chunk","path":"/e","chunk":[0]}
> {"op":"read_chunk","path":"/f","chunk":[0]}
# A value with a part of a cell.
> {"op":"read_box","path":"/g","box":[[0,1]]}
# A part of the chunk would stay.
> {"op":"write_box","path":"/a","box":[[1,2]],"cells":[true]}
> {"op":"write_box","path":"/b","box":[[1,2]],"cells":[-1]}
> {"op":"write_box","path":"/g","box":[[0,1]],"cells":[1]}
< {"applied":0,"refused":"Damage"}

> {"op":"write_chunk","path":"/a","chunk":[0],"cells":[false,true]}
> {"op":"write_box","path":"/b","box":[[0,2]],"cells":[-2,1]}
> {"op":"write_chunk","path":"/c","chunk":[0],"cells":[0,0]}
> {"op":"erase_chunks","path":"/d","box":[[0,1]]}
< {"done":true}
> {"op":"read_chunk","path":"/a","chunk":[0]}
< {"cells":[false,true]}
> {"op":"read_chunk","path":"/b","chunk":[0]}
< {"cells":[-2,1]}

after:
  a/c/0 = 00 01
  a/zarr.json = $stored{"shape":[2],"data_type":"bool","chunk_grid":{"name":"regular","configuration":{"chunk_shape":[2]}},"fill_value":false}
  b/c/0 = fe 01
  b/zarr.json = $stored{"shape":[2],"data_type":"int2","chunk_grid":{"name":"regular","configuration":{"chunk_shape":[2]}}}
  c/zarr.json = $stored{"shape":[2],"data_type":"int2","chunk_grid":{"name":"regular","configuration":{"chunk_shape":[2]}}}
  d/zarr.json = $stored{"shape":[2],"data_type":"int4","chunk_grid":{"name":"regular","configuration":{"chunk_shape":[2]}}}
  e/c/0 = 03 04
  e/zarr.json = $stored{"shape":[2],"data_type":"uint2","chunk_grid":{"name":"regular","configuration":{"chunk_shape":[2]}}}
  f/c/0 = 0f 10
  f/zarr.json = $stored{"shape":[2],"data_type":"uint4","chunk_grid":{"name":"regular","configuration":{"chunk_shape":[2]}}}
  g/c/0 = 01 00 02
  g/zarr.json = $stored{"shape":[2],"data_type":"uint16","chunk_grid":{"name":"regular","configuration":{"chunk_shape":[2]}},"codecs":[{"name":"bytes","configuration":{"endian":"little"}}]}
