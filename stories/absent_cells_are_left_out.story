A chunk of optional cells holds a mask, and then the cells that are present.

> {"op":"create","path":"/o","document":$zeros{"shape":[3],"data_type":{"name":"zarrs.optional","configuration":{"name":"uint8"}},"chunk_grid":{"name":"regular","configuration":{"chunk_shape":[3]}},"fill_value":null,"codecs":[{"name":"zarrs.optional","configuration":{"mask_codecs":["packbits"],"data_codecs":["bytes"]}}]}}
> {"op":"write_box","path":"/o","box":[[0,3]],"cells":[[5],null,[7]]}
< {"done":true}
> {"op":"read_box","path":"/o","box":[[0,3]]}
< {"cells":[[5],null,[7]]}
> {"op":"read_box","path":"/o","box":[[1,3]]}
< {"cells":[null,[7]]}

after:
  o/c/0 = 0100000000000000 0200000000000000 05 0507
  o/zarr.json = $stored{"shape":[3],"data_type":{"name":"zarrs.optional","configuration":{"name":"uint8"}},"chunk_grid":{"name":"regular","configuration":{"chunk_shape":[3]}},"fill_value":null,"codecs":[{"name":"zarrs.optional","configuration":{"mask_codecs":["packbits"],"data_codecs":["bytes"]}}]}
