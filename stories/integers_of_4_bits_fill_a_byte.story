Two integers of 4 bits fill a byte, the first one its lower half. Cells outside -8 to 7 are refused, and nothing of them is stored.

> {"op":"create","path":"/p","document":$zeros{"shape":[2],"data_type":"int4","chunk_grid":{"name":"regular","configuration":{"chunk_shape":[2]}},"codecs":["packbits"]}}
> {"op":"write_box","path":"/p","box":[[0,2]],"cells":[-8,7]}
< {"done":true}
> {"op":"read_box","path":"/p","box":[[0,2]]}
< {"cells":[-8,7]}
> {"op":"write_box","path":"/p","box":[[0,1]],"cells":[8]}
> {"op":"write_box","path":"/p","box":[[0,2]],"cells":[-9,0]}
> {"op":"write_chunk","path":"/p","chunk":[0],"cells":[0,8]}
< {"applied":0,"refused":"Data"}

after:
  p/c/0 = 78
  p/zarr.json = $stored{"shape":[2],"data_type":"int4","chunk_grid":{"name":"regular","configuration":{"chunk_shape":[2]}},"codecs":["packbits"]}
