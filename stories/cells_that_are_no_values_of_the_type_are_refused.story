Cells that aren't values of the data type are refused, and nothing is written.

> {"op":"create","path":"/a","document":$zeros{"shape":[2],"chunk_grid":{"name":"regular","configuration":{"chunk_shape":[2]}}}}
> {"op":"create","path":"/b","document":$zeros{"shape":[2],"data_type":"bool","chunk_grid":{"name":"regular","configuration":{"chunk_shape":[2]}},"fill_value":false}}
> {"op":"create","path":"/c","document":$zeros{"shape":[2],"data_type":"int2","chunk_grid":{"name":"regular","configuration":{"chunk_shape":[2]}}}}
> {"op":"create","path":"/d","document":$zeros{"shape":[2],"data_type":"int64","chunk_grid":{"name":"regular","configuration":{"chunk_shape":[2]}},"codecs":[{"name":"bytes","configuration":{"endian":"little"}}]}}
< {"done":true}

# uint8.
> {"op":"write_box","path":"/a","box":[[0,2]],"cells":[1,300]}
> {"op":"write_box","path":"/a","box":[[0,2]],"cells":[1,-1]}
> {"op":"write_box","path":"/a","box":[[0,2]],"cells":[1,true]}
> {"op":"write_box","path":"/a","box":[[0,2]],"cells":[1,2.0]}
> {"op":"write_box","path":"/a","box":[[0,2]],"cells":[1,null]}
> {"op":"write_box","path":"/a","box":[[0,2]],"cells":[1,[2]]}
> {"op":"write_box","path":"/a","box":[[0,2]],"cells":[1,"Ag=="]}
> {"op":"write_box","path":"/a","box":[[0,2]],"cells":"AQI="}
> {"op":"write_chunk","path":"/a","chunk":[0],"cells":"AQI="}
# bool.
> {"op":"write_box","path":"/b","box":[[0,2]],"cells":[true,1]}
> {"op":"write_box","path":"/b","box":[[0,2]],"cells":[0,false]}
> {"op":"write_box","path":"/b","box":[[0,2]],"cells":[true,"true"]}
> {"op":"write_box","path":"/b","box":[[0,2]],"cells":[true,null]}
# int2.
> {"op":"write_box","path":"/c","box":[[0,2]],"cells":[1,2]}
> {"op":"write_box","path":"/c","box":[[0,2]],"cells":[-3,0]}
> {"op":"write_chunk","path":"/c","chunk":[0],"cells":[false,0]}
# int64.
> {"op":"write_box","path":"/d","box":[[0,2]],"cells":[1,9223372036854775808]}
> {"op":"write_box","path":"/d","box":[[0,2]],"cells":[1,-9223372036854775809]}
> {"op":"write_box","path":"/d","box":[[0,2]],"cells":[1]}
> {"op":"write_box","path":"/d","box":[[0,2]],"cells":[1,0,0,0,0,0,0,0,2,0,0,0,0,0,0,0]}
< {"applied":0,"refused":"Data"}

after:
  a/zarr.json = $stored{"shape":[2],"chunk_grid":{"name":"regular","configuration":{"chunk_shape":[2]}}}
  b/zarr.json = $stored{"shape":[2],"data_type":"bool","chunk_grid":{"name":"regular","configuration":{"chunk_shape":[2]}},"fill_value":false}
  c/zarr.json = $stored{"shape":[2],"data_type":"int2","chunk_grid":{"name":"regular","configuration":{"chunk_shape":[2]}}}
  d/zarr.json = $stored{"shape":[2],"data_type":"int64","chunk_grid":{"name":"regular","configuration":{"chunk_shape":[2]}},"codecs":[{"name":"bytes","configuration":{"endian":"little"}}]}
