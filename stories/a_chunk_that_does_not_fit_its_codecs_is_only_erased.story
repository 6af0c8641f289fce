Cells of several bytes don't fit a codec without a byte order: such an array is created, and read where no chunk is stored, but not written.

before:
  a/c/1 = 01 00 02 00
  b/c/0 = 01

> {"op":"create","path":"/a","document":$zeros{"shape":[4],"data_type":"uint16","chunk_grid":{"name":"regular","configuration":{"chunk_shape":[2]}},"fill_value":7}}
> {"op":"create","path":"/b","document":$zeros{"shape":[1],"data_type":"int8","chunk_grid":{"name":"regular","configuration":{"chunk_shape":[1]}}}}
< {"done":true}
> {"op":"read_box","path":"/a","box":[[0,2]]}
> {"op":"read_chunk","path":"/a","chunk":[0]}
< {"cells":[7,7]}
> {"op":"read_box","path":"/a","box":[[1,3]]}
> {"op":"read_chunk","path":"/a","chunk":[1]}
# Any write, also one of fill or over the stored chunk.
> {"op":"write_box","path":"/a","box":[[0,1]],"cells":[1]}
> {"op":"write_box","path":"/a","box":[[0,2]],"cells":[7,7]}
> {"op":"write_chunk","path":"/a","chunk":[0],"cells":[1,2]}
> {"op":"write_chunk","path":"/a","chunk":[1],"cells":[1,2]}
> {"op":"write_box","path":"/a","box":[[1,3]],"cells":[1,2]}
< {"applied":0,"refused":"Fit"}
# The box and the cells are looked at before.
> {"op":"write_box","path":"/a","box":[[3,5]],"cells":[1,2]}
< {"applied":0,"refused":"Region"}
> {"op":"write_box","path":"/a","box":[[0,1]],"cells":[65536]}
< {"applied":0,"refused":"Data"}
# No chunk is met.
> {"op":"write_box","path":"/a","box":[[1,1]],"cells":[]}
> {"op":"erase_chunks","path":"/a","box":[[1,2]]}
< {"done":true}
> {"op":"read_box","path":"/a","box":[[0,4]]}
< {"cells":[7,7,7,7]}
# A single byte has no order.
> {"op":"write_chunk","path":"/b","chunk":[0],"cells":[-1]}
< {"done":true}

after:
  a/zarr.json = $stored{"shape":[4],"data_type":"uint16","chunk_grid":{"name":"regular","configuration":{"chunk_shape":[2]}},"fill_value":7}
  b/c/0 = ff
  b/zarr.json = $stored{"shape":[1],"data_type":"int8","chunk_grid":{"name":"regular","configuration":{"chunk_shape":[1]}}}
