The same cells are cut into other chunks by each chunk grid.

# Rows 0+3 and 3+3, columns 0+2 and 2+2.
> {"op":"create","path":"/a","document":$zeros{"chunk_grid":{"name":"regular","configuration":{"chunk_shape":[3,2]}}}}
> {"op":"write_box","path":"/a","box":[[0,4],[0,4]],"cells":[1,2,3,4,5,6,7,8,9,10,11,12,13,14,15,16]}
# Rows 0+3 and 3+1, columns 0+4.
> {"op":"create","path":"/b","document":$zeros{"chunk_grid":{"name":"regular_bounded","configuration":{"chunk_shape":[3,5]}}}}
> {"op":"write_box","path":"/b","box":[[0,4],[0,4]],"cells":[1,2,3,4,5,6,7,8,9,10,11,12,13,14,15,16]}
# Rows 0+1 and 1+3, columns 0+3 and 3+3.
> {"op":"create","path":"/c","document":$zeros{"chunk_grid":{"name":"rectangular","configuration":{"chunk_shape":[[1,3],3]}}}}
> {"op":"write_box","path":"/c","box":[[0,4],[0,4]],"cells":[1,2,3,4,5,6,7,8,9,10,11,12,13,14,15,16]}
# Rows 0+1, 1+1 and 2+3, columns 0+4.
> {"op":"create","path":"/d","document":$zeros{"chunk_grid":{"name":"rectilinear","configuration":{"kind":"inline","chunk_shapes":[[[1,2],3],4]}}}}
> {"op":"write_box","path":"/d","box":[[0,4],[0,4]],"cells":[1,2,3,4,5,6,7,8,9,10,11,12,13,14,15,16]}
< {"done":true}

after:
  a/c/0/0 = 01 02 05 06 09 0a
  a/c/0/1 = 03 04 07 08 0b 0c
  a/c/1/0 = 0d 0e 00 00 00 00
  a/c/1/1 = 0f 10 00 00 00 00
  a/zarr.json = $stored{"chunk_grid":{"name":"regular","configuration":{"chunk_shape":[3,2]}}}
  b/c/0/0 = 01 02 03 04 05 06 07 08 09 0a 0b 0c
  b/c/1/0 = 0d 0e 0f 10
  b/zarr.json = $stored{"chunk_grid":{"name":"regular_bounded","configuration":{"chunk_shape":[3,5]}}}
  c/c/0/0 = 01 02 03
  c/c/0/1 = 04 00 00
  c/c/1/0 = 05 06 07 09 0a 0b 0d 0e 0f
  c/c/1/1 = 08 00 00 0c 00 00 10 00 00
  c/zarr.json = $stored{"chunk_grid":{"name":"rectangular","configuration":{"chunk_shape":[[1,3],3]}}}
  d/c/0/0 = 01 02 03 04
  d/c/1/0 = 05 06 07 08
  d/c/2/0 = 09 0a 0b 0c 0d 0e 0f 10 00 00 00 00
  d/zarr.json = $stored{"chunk_grid":{"name":"rectilinear","configuration":{"kind":"inline","chunk_shapes":[[[1,2],3],4]}}}
