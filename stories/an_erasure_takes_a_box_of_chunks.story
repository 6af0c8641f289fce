An erasure takes a column, a row or all of the chunks of an array, and no key of another array.

before:
  b/c/0/1 = 00 00 00 00 00

> {"op":"create","path":"/a","document":$zeros{"shape":[4,6],"chunk_grid":{"name":"regular","configuration":{"chunk_shape":[2,3]}},"fill_value":200}}
> {"op":"write_box","path":"/a","box":[[0,4],[0,6]],"cells":[1,2,3,4,5,6,7,8,9,10,11,12,13,14,15,16,17,18,19,20,21,22,23,24]}
# No chunk, also where the empty box lies past the grid, or ends before it begins.
> {"op":"erase_chunks","path":"/a","box":[[0,0],[0,2]]}
> {"op":"erase_chunks","path":"/a","box":[[1,2],[1,1]]}
> {"op":"erase_chunks","path":"/a","box":[[7,7],[7,7]]}
> {"op":"erase_chunks","path":"/a","box":[[2,1],[0,2]]}
< {"done":true}
> {"op":"read_box","path":"/a","box":[[0,4],[0,6]]}
< {"cells":[1,2,3,4,5,6,7,8,9,10,11,12,13,14,15,16,17,18,19,20,21,22,23,24]}

after:
  a/c/0/0 = 01 02 03 07 08 09
  a/c/0/1 = 04 05 06 0a 0b 0c
  a/c/1/0 = 0d 0e 0f 13 14 15
  a/c/1/1 = 10 11 12 16 17 18
  a/zarr.json = $stored{"shape":[4,6],"chunk_grid":{"name":"regular","configuration":{"chunk_shape":[2,3]}},"fill_value":200}
  b/c/0/1 = 00 00 00 00 00

# A column of chunks.
> {"op":"reopen","path":"/a"}
> {"op":"erase_chunks","path":"/a","box":[[0,2],[1,2]]}
< {"done":true}
> {"op":"read_box","path":"/a","box":[[0,4],[0,6]]}
< {"cells":[1,2,3,200,200,200,7,8,9,200,200,200,13,14,15,200,200,200,19,20,21,200,200,200]}

after:
  a/c/0/0 = 01 02 03 07 08 09
  a/c/1/0 = 0d 0e 0f 13 14 15
  a/zarr.json = $stored{"shape":[4,6],"chunk_grid":{"name":"regular","configuration":{"chunk_shape":[2,3]}},"fill_value":200}
  b/c/0/1 = 00 00 00 00 00

# A row, of which one chunk has no key any more.
> {"op":"reopen","path":"/a"}
> {"op":"erase_chunks","path":"/a","box":[[1,2],[0,2]]}
< {"done":true}

after:
  a/c/0/0 = 01 02 03 07 08 09
  a/zarr.json = $stored{"shape":[4,6],"chunk_grid":{"name":"regular","configuration":{"chunk_shape":[2,3]}},"fill_value":200}
  b/c/0/1 = 00 00 00 00 00

# All chunks, one of them with a value of a wrong length; and then again, where none has a key.
before:
  a/c/0/0 = 01
  a/c/0/1 = 04 05 06 0a 0b 0c

> {"op":"reopen","path":"/a"}
> {"op":"erase_chunks","path":"/a","box":[[0,2],[0,2]]}
< {"done":true}
> {"op":"read_box","path":"/a","box":[[0,4],[0,6]]}
< {"cells":[200,200,200,200,200,200,200,200,200,200,200,200,200,200,200,200,200,200,200,200,200,200,200,200]}
> {"op":"erase_chunks","path":"/a","box":[[0,2],[0,2]]}
< {"done":true}

after:
  a/zarr.json = $stored{"shape":[4,6],"chunk_grid":{"name":"regular","configuration":{"chunk_shape":[2,3]}},"fill_value":200}
  b/c/0/1 = 00 00 00 00 00
