A fill value of bytes may be given in base64. It is stored as a list. Cells are never given in base64.

> {"op":"create","path":"/b","document":$zeros{"shape":[2],"data_type":"bytes","chunk_grid":{"name":"regular","configuration":{"chunk_shape":[2]}},"fill_value":"AQI=","codecs":[{"name":"vlen","configuration":{"index_codecs":["packbits"],"data_codecs":["bytes"],"index_data_type":"uint32"}}]}}
< {"done":true}
> {"op":"read_box","path":"/b","box":[[0,2]]}
< {"cells":[[1,2],[1,2]]}
> {"op":"write_box","path":"/b","box":[[0,1]],"cells":["AQI="]}
< {"applied":0,"refused":"Data"}
> {"op":"write_box","path":"/b","box":[[0,1]],"cells":[[1,2]]}
< {"done":true}

after:
  b/zarr.json = $stored{"shape":[2],"data_type":"bytes","chunk_grid":{"name":"regular","configuration":{"chunk_shape":[2]}},"fill_value":[1,2],"codecs":[{"name":"vlen","configuration":{"index_codecs":["packbits"],"data_codecs":["bytes"],"index_data_type":"uint32"}}]}

> {"op":"reopen","path":"/b"}
< {"done":true}
> {"op":"read_box","path":"/b","box":[[0,2]]}
< {"cells":[[1,2],[1,2]]}

after: as before
