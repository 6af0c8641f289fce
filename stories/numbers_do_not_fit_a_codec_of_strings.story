A document may name codecs that don't fit its data type. Its chunks then are fill, and none is written.

> {"op":"create","path":"/n","document":$zeros{"codecs":[{"name":"vlen","configuration":{"index_codecs":["packbits"],"data_codecs":["bytes"],"index_data_type":"uint32"}}]}}
> {"op":"create","path":"/s","document":$zeros{"data_type":"string","fill_value":"a"}}
< {"done":true}
> {"op":"write_box","path":"/n","box":[[0,1],[0,1]],"cells":[1]}
> {"op":"write_box","path":"/s","box":[[0,1],[0,1]],"cells":["b"]}
< {"applied":0,"refused":"Fit"}
> {"op":"read_box","path":"/n","box":[[0,1],[0,1]]}
< {"cells":[0]}
> {"op":"read_box","path":"/s","box":[[0,1],[0,1]]}
< {"cells":["a"]}

after:
  n/zarr.json = $stored{"codecs":[{"name":"vlen","configuration":{"index_codecs":["packbits"],"data_codecs":["bytes"],"index_data_type":"uint32"}}]}
  s/zarr.json = $stored{"data_type":"string","fill_value":"a"}
