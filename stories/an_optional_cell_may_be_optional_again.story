Of optional cells of optional cells, those that are present have a mask of their own. Names are kept as they are given.

> {"op":"create","path":"/o","document":$zeros{"shape":[3],"data_type":{"name":"optional","configuration":{"name":"zarrs.optional","configuration":{"name":"uint8"}}},"chunk_grid":{"name":"regular","configuration":{"chunk_shape":[3]}},"fill_value":null,"codecs":[{"name":"optional","configuration":{"mask_codecs":["packbits"],"data_codecs":[{"name":"zarrs.optional","configuration":{"mask_codecs":["packbits"],"data_codecs":["bytes"]}}]}}]}}
> {"op":"write_box","path":"/o","box":[[0,3]],"cells":[null,[null],[[9]]]}
< {"done":true}
> {"op":"read_box","path":"/o","box":[[0,3]]}
< {"cells":[null,[null],[[9]]]}
> {"op":"write_box","path":"/o","box":[[0,1]],"cells":[9]}
< {"applied":0,"refused":"Data"}

after:
  o/c/0 = 0100000000000000 1200000000000000 06 0100000000000000 0100000000000000 02 09
  o/zarr.json = $stored{"shape":[3],"data_type":{"name":"optional","configuration":{"name":"zarrs.optional","configuration":{"name":"uint8"}}},"chunk_grid":{"name":"regular","configuration":{"chunk_shape":[3]}},"fill_value":null,"codecs":[{"name":"optional","configuration":{"mask_codecs":["packbits"],"data_codecs":[{"name":"zarrs.optional","configuration":{"mask_codecs":["packbits"],"data_codecs":["bytes"]}}]}}]}
