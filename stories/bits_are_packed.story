`packbits` stores only the bits of each element, without gaps, the lowest first.

> {"op":"create","path":"/p","document":$zeros{"shape":[4],"data_type":"int4","chunk_grid":{"name":"regular","configuration":{"chunk_shape":[4]}},"codecs":["packbits"]}}
> {"op":"write_box","path":"/p","box":[[0,4]],"cells":[1,-1,7,-8]}
< {"done":true}
> {"op":"read_box","path":"/p","box":[[0,4]]}
< {"cells":[1,-1,7,-8]}
> {"op":"read_box","path":"/p","box":[[1,3]]}
< {"cells":[-1,7]}

after:
  p/c/0 = f1 87
  p/zarr.json = $stored{"shape":[4],"data_type":"int4","chunk_grid":{"name":"regular","configuration":{"chunk_shape":[4]}},"codecs":["packbits"]}
