The least and the greatest number of each integer type are cells; those beyond are not.

> {"op":"create","path":"/int2","document":$zeros{"shape":[2],"data_type":"int2","chunk_grid":{"name":"regular","configuration":{"chunk_shape":[2]}},"codecs":["bytes"]}}
> {"op":"write_box","path":"/int2","box":[[0,2]],"cells":[-2,1]}
< {"done":true}
> {"op":"read_box","path":"/int2","box":[[0,2]]}
< {"cells":[-2,1]}
> {"op":"write_box","path":"/int2","box":[[0,1]],"cells":[-3]}
> {"op":"write_box","path":"/int2","box":[[0,1]],"cells":[2]}
< {"applied":0,"refused":"Data"}
> {"op":"create","path":"/int4","document":$zeros{"shape":[2],"data_type":"int4","chunk_grid":{"name":"regular","configuration":{"chunk_shape":[2]}},"codecs":["bytes"]}}
> {"op":"write_box","path":"/int4","box":[[0,2]],"cells":[-8,7]}
< {"done":true}
> {"op":"read_box","path":"/int4","box":[[0,2]]}
< {"cells":[-8,7]}
> {"op":"write_box","path":"/int4","box":[[0,1]],"cells":[-9]}
> {"op":"write_box","path":"/int4","box":[[0,1]],"cells":[8]}
< {"applied":0,"refused":"Data"}
> {"op":"create","path":"/int8","document":$zeros{"shape":[2],"data_type":"int8","chunk_grid":{"name":"regular","configuration":{"chunk_shape":[2]}},"codecs":["bytes"]}}
> {"op":"write_box","path":"/int8","box":[[0,2]],"cells":[-128,127]}
< {"done":true}
> {"op":"read_box","path":"/int8","box":[[0,2]]}
< {"cells":[-128,127]}
> {"op":"write_box","path":"/int8","box":[[0,1]],"cells":[-129]}
> {"op":"write_box","path":"/int8","box":[[0,1]],"cells":[128]}
< {"applied":0,"refused":"Data"}
> {"op":"create","path":"/int16","document":$zeros{"shape":[2],"data_type":"int16","chunk_grid":{"name":"regular","configuration":{"chunk_shape":[2]}},"codecs":[{"name":"bytes","configuration":{"endian":"little"}}]}}
> {"op":"write_box","path":"/int16","box":[[0,2]],"cells":[-32768,32767]}
< {"done":true}
> {"op":"read_box","path":"/int16","box":[[0,2]]}
< {"cells":[-32768,32767]}
> {"op":"write_box","path":"/int16","box":[[0,1]],"cells":[-32769]}
> {"op":"write_box","path":"/int16","box":[[0,1]],"cells":[32768]}
< {"applied":0,"refused":"Data"}
> {"op":"create","path":"/int32","document":$zeros{"shape":[2],"data_type":"int32","chunk_grid":{"name":"regular","configuration":{"chunk_shape":[2]}},"codecs":[{"name":"bytes","configuration":{"endian":"little"}}]}}
> {"op":"write_box","path":"/int32","box":[[0,2]],"cells":[-2147483648,2147483647]}
< {"done":true}
> {"op":"read_box","path":"/int32","box":[[0,2]]}
< {"cells":[-2147483648,2147483647]}
> {"op":"write_box","path":"/int32","box":[[0,1]],"cells":[-2147483649]}
> {"op":"write_box","path":"/int32","box":[[0,1]],"cells":[2147483648]}
< {"applied":0,"refused":"Data"}
> {"op":"create","path":"/int64","document":$zeros{"shape":[2],"data_type":"int64","chunk_grid":{"name":"regular","configuration":{"chunk_shape":[2]}},"codecs":[{"name":"bytes","configuration":{"endian":"little"}}]}}
> {"op":"write_box","path":"/int64","box":[[0,2]],"cells":[-9223372036854775808,9223372036854775807]}
< {"done":true}
> {"op":"read_box","path":"/int64","box":[[0,2]]}
< {"cells":[-9223372036854775808,9223372036854775807]}
> {"op":"write_box","path":"/int64","box":[[0,1]],"cells":[-9223372036854775809]}
> {"op":"write_box","path":"/int64","box":[[0,1]],"cells":[9223372036854775808]}
< {"applied":0,"refused":"Data"}
> {"op":"create","path":"/uint2","document":$zeros{"shape":[2],"data_type":"uint2","chunk_grid":{"name":"regular","configuration":{"chunk_shape":[2]}},"codecs":["bytes"]}}
> {"op":"write_box","path":"/uint2","box":[[0,2]],"cells":[0,3]}
< {"done":true}
> {"op":"read_box","path":"/uint2","box":[[0,2]]}
< {"cells":[0,3]}
> {"op":"write_box","path":"/uint2","box":[[0,1]],"cells":[-1]}
> {"op":"write_box","path":"/uint2","box":[[0,1]],"cells":[4]}
< {"applied":0,"refused":"Data"}
> {"op":"create","path":"/uint4","document":$zeros{"shape":[2],"data_type":"uint4","chunk_grid":{"name":"regular","configuration":{"chunk_shape":[2]}},"codecs":["bytes"]}}
> {"op":"write_box","path":"/uint4","box":[[0,2]],"cells":[0,15]}
< {"done":true}
> {"op":"read_box","path":"/uint4","box":[[0,2]]}
< {"cells":[0,15]}
> {"op":"write_box","path":"/uint4","box":[[0,1]],"cells":[-1]}
> {"op":"write_box","path":"/uint4","box":[[0,1]],"cells":[16]}
< {"applied":0,"refused":"Data"}
> {"op":"create","path":"/uint8","document":$zeros{"shape":[2],"data_type":"uint8","chunk_grid":{"name":"regular","configuration":{"chunk_shape":[2]}},"codecs":["bytes"]}}
> {"op":"write_box","path":"/uint8","box":[[0,2]],"cells":[0,255]}
< {"done":true}
> {"op":"read_box","path":"/uint8","box":[[0,2]]}
< {"cells":[0,255]}
> {"op":"write_box","path":"/uint8","box":[[0,1]],"cells":[-1]}
> {"op":"write_box","path":"/uint8","box":[[0,1]],"cells":[256]}
< {"applied":0,"refused":"Data"}
> {"op":"create","path":"/uint16","document":$zeros{"shape":[2],"data_type":"uint16","chunk_grid":{"name":"regular","configuration":{"chunk_shape":[2]}},"codecs":[{"name":"bytes","configuration":{"endian":"little"}}]}}
> {"op":"write_box","path":"/uint16","box":[[0,2]],"cells":[0,65535]}
< {"done":true}
> {"op":"read_box","path":"/uint16","box":[[0,2]]}
< {"cells":[0,65535]}
> {"op":"write_box","path":"/uint16","box":[[0,1]],"cells":[-1]}
> {"op":"write_box","path":"/uint16","box":[[0,1]],"cells":[65536]}
< {"applied":0,"refused":"Data"}
> {"op":"create","path":"/uint32","document":$zeros{"shape":[2],"data_type":"uint32","chunk_grid":{"name":"regular","configuration":{"chunk_shape":[2]}},"codecs":[{"name":"bytes","configuration":{"endian":"little"}}]}}
> {"op":"write_box","path":"/uint32","box":[[0,2]],"cells":[0,4294967295]}
< {"done":true}
> {"op":"read_box","path":"/uint32","box":[[0,2]]}
< {"cells":[0,4294967295]}
> {"op":"write_box","path":"/uint32","box":[[0,1]],"cells":[-1]}
> {"op":"write_box","path":"/uint32","box":[[0,1]],"cells":[4294967296]}
< {"applied":0,"refused":"Data"}
> {"op":"create","path":"/uint64","document":$zeros{"shape":[2],"data_type":"uint64","chunk_grid":{"name":"regular","configuration":{"chunk_shape":[2]}},"codecs":[{"name":"bytes","configuration":{"endian":"little"}}]}}
> {"op":"write_box","path":"/uint64","box":[[0,2]],"cells":[0,18446744073709551615]}
< {"done":true}
> {"op":"read_box","path":"/uint64","box":[[0,2]]}
< {"cells":[0,18446744073709551615]}
> {"op":"write_box","path":"/uint64","box":[[0,1]],"cells":[-1]}
> {"op":"write_box","path":"/uint64","box":[[0,1]],"cells":[18446744073709551616]}
< {"applied":0,"refused":"Data"}

after:
  int16/c/0 = 00 80 ff 7f
  int16/zarr.json = $stored{"shape":[2],"data_type":"int16","chunk_grid":{"name":"regular","configuration":{"chunk_shape":[2]}},"codecs":[{"name":"bytes","configuration":{"endian":"little"}}]}
  int2/c/0 = fe 01
  int2/zarr.json = $stored{"shape":[2],"data_type":"int2","chunk_grid":{"name":"regular","configuration":{"chunk_shape":[2]}},"codecs":["bytes"]}
  int32/c/0 = 00 00 00 80 ff ff ff 7f
  int32/zarr.json = $stored{"shape":[2],"data_type":"int32","chunk_grid":{"name":"regular","configuration":{"chunk_shape":[2]}},"codecs":[{"name":"bytes","configuration":{"endian":"little"}}]}
  int4/c/0 = f8 07
  int4/zarr.json = $stored{"shape":[2],"data_type":"int4","chunk_grid":{"name":"regular","configuration":{"chunk_shape":[2]}},"codecs":["bytes"]}
  int64/c/0 = 00 00 00 00 00 00 00 80 ff ff ff ff ff ff ff 7f
  int64/zarr.json = $stored{"shape":[2],"data_type":"int64","chunk_grid":{"name":"regular","configuration":{"chunk_shape":[2]}},"codecs":[{"name":"bytes","configuration":{"endian":"little"}}]}
  int8/c/0 = 80 7f
  int8/zarr.json = $stored{"shape":[2],"data_type":"int8","chunk_grid":{"name":"regular","configuration":{"chunk_shape":[2]}},"codecs":["bytes"]}
  uint16/c/0 = 00 00 ff ff
  uint16/zarr.json = $stored{"shape":[2],"data_type":"uint16","chunk_grid":{"name":"regular","configuration":{"chunk_shape":[2]}},"codecs":[{"name":"bytes","configuration":{"endian":"little"}}]}
  uint2/c/0 = 00 03
  uint2/zarr.json = $stored{"shape":[2],"data_type":"uint2","chunk_grid":{"name":"regular","configuration":{"chunk_shape":[2]}},"codecs":["bytes"]}
  uint32/c/0 = 00 00 00 00 ff ff ff ff
  uint32/zarr.json = $stored{"shape":[2],"data_type":"uint32","chunk_grid":{"name":"regular","configuration":{"chunk_shape":[2]}},"codecs":[{"name":"bytes","configuration":{"endian":"little"}}]}
  uint4/c/0 = 00 0f
  uint4/zarr.json = $stored{"shape":[2],"data_type":"uint4","chunk_grid":{"name":"regular","configuration":{"chunk_shape":[2]}},"codecs":["bytes"]}
  uint64/c/0 = 00 00 00 00 00 00 00 00 ff ff ff ff ff ff ff ff
  uint64/zarr.json = $stored{"shape":[2],"data_type":"uint64","chunk_grid":{"name":"regular","configuration":{"chunk_shape":[2]}},"codecs":[{"name":"bytes","configuration":{"endian":"little"}}]}
  uint8/c/0 = 00 ff
  uint8/zarr.json = $stored{"shape":[2],"data_type":"uint8","chunk_grid":{"name":"regular","configuration":{"chunk_shape":[2]}},"codecs":["bytes"]}
