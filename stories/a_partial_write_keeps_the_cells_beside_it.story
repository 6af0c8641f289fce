A write of a part of a chunk keeps its other cells, and takes the chunk out only where all of it is fill then.

> {"op":"create","path":"/a","document":$zeros{"shape":[4,6],"chunk_grid":{"name":"regular","configuration":{"chunk_shape":[2,3]}},"fill_value":200}}
> {"op":"write_box","path":"/a","box":[[1,3],[2,4]],"cells":[1,2,3,4]}
< {"done":true}

after:
  a/c/0/0 = c8 c8 c8 c8 c8 01
  a/c/0/1 = c8 c8 c8 02 c8 c8
  a/c/1/0 = c8 c8 03 c8 c8 c8
  a/c/1/1 = 04 c8 c8 c8 c8 c8
  a/zarr.json = $stored{"shape":[4,6],"chunk_grid":{"name":"regular","configuration":{"chunk_shape":[2,3]}},"fill_value":200}

# The fill value in place of the one other cell of a chunk; and again, with the option for empty chunks.
> {"op":"reopen","path":"/a"}
> {"op":"write_box","path":"/a","box":[[1,2],[2,3]],"cells":[200]}
> {"op":"write_box","path":"/a","box":[[1,2],[3,4]],"cells":[200],"options":{"empty":true}}
< {"done":true}

after:
  a/c/0/1 = c8 c8 c8 c8 c8 c8
  a/c/1/0 = c8 c8 03 c8 c8 c8
  a/c/1/1 = 04 c8 c8 c8 c8 c8
  a/zarr.json = $stored{"shape":[4,6],"chunk_grid":{"name":"regular","configuration":{"chunk_shape":[2,3]}},"fill_value":200}
