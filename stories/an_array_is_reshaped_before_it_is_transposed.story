Before `bytes`, a chunk can be given another shape. Its elements stay in their order, unless they are then transposed.

> {"op":"create","path":"/r","document":$zeros{"shape":[2,3],"chunk_grid":{"name":"regular","configuration":{"chunk_shape":[2,3]}},"codecs":[{"name":"reshape","configuration":{"shape":[3,-1]}},{"name":"transpose","configuration":{"order":[1,0]}},"bytes"]}}
> {"op":"write_box","path":"/r","box":[[0,2],[0,3]],"cells":[1,2,3,4,5,6]}
< {"done":true}
> {"op":"read_box","path":"/r","box":[[0,2],[1,2]]}
< {"cells":[2,5]}
# The sizes of some dimensions can be joined.
> {"op":"create","path":"/s","document":$zeros{"shape":[2,3],"chunk_grid":{"name":"regular","configuration":{"chunk_shape":[2,3]}},"codecs":[{"name":"reshape","configuration":{"shape":[[0,1]]}},"bytes"]}}
> {"op":"write_chunk","path":"/s","chunk":[0,0],"cells":[1,2,3,4,5,6]}
< {"done":true}
> {"op":"read_box","path":"/s","box":[[1,2],[0,3]]}
< {"cells":[4,5,6]}
# Two sizes can't both be left over, and four elements aren't six.
> {"op":"create","path":"/t","document":$zeros{"shape":[2,3],"chunk_grid":{"name":"regular","configuration":{"chunk_shape":[2,3]}},"codecs":[{"name":"reshape","configuration":{"shape":[-1,-1]}},"bytes"]}}
< {"applied":0,"refused":"Document"}
> {"op":"create","path":"/u","document":$zeros{"shape":[2,3],"chunk_grid":{"name":"regular","configuration":{"chunk_shape":[2,3]}},"codecs":[{"name":"reshape","configuration":{"shape":[2,2]}},"bytes"]}}
< {"done":true}
> {"op":"write_box","path":"/u","box":[[0,1],[0,1]],"cells":[1]}
< {"applied":0,"refused":"Fit"}
> {"op":"read_box","path":"/u","box":[[0,1],[0,2]]}
< {"cells":[0,0]}

after:
  r/c/0/0 = 01 03 05 02 04 06
  r/zarr.json = $stored{"shape":[2,3],"chunk_grid":{"name":"regular","configuration":{"chunk_shape":[2,3]}},"codecs":[{"name":"reshape","configuration":{"shape":[3,-1]}},{"name":"transpose","configuration":{"order":[1,0]}},"bytes"]}
  s/c/0/0 = 01 02 03 04 05 06
  s/zarr.json = $stored{"shape":[2,3],"chunk_grid":{"name":"regular","configuration":{"chunk_shape":[2,3]}},"codecs":[{"name":"reshape","configuration":{"shape":[[0,1]]}},"bytes"]}
  u/zarr.json = $stored{"shape":[2,3],"chunk_grid":{"name":"regular","configuration":{"chunk_shape":[2,3]}},"codecs":[{"name":"reshape","configuration":{"shape":[2,2]}},"bytes"]}
