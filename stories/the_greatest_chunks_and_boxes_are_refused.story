A place in a chunk that would end past 2^64 is in no chunk, and 2^63 cells or more are too many.

# Chunks of 2^62 cells: the fourth would end at 2^64.
> {"op":"create","path":"/a","document":$zeros{"shape":[18446744073709551615],"chunk_grid":{"name":"regular","configuration":{"chunk_shape":[4611686018427387904]}}}}
< {"done":true}
> {"op":"read_box","path":"/a","box":[[13835058055282163712,13835058055282163713]]}
> {"op":"read_chunk","path":"/a","chunk":[3]}
> {"op":"erase_chunks","path":"/a","box":[[0,4]]}
< {"applied":0,"refused":"Region"}
> {"op":"read_box","path":"/a","box":[[0,1]]}
< {"cells":[0]}
> {"op":"erase_chunks","path":"/a","box":[[0,3]]}
< {"done":true}
# Chunks of 2^63 cells.
> {"op":"create","path":"/b","document":$zeros{"shape":[18446744073709551615],"chunk_grid":{"name":"regular","configuration":{"chunk_shape":[9223372036854775808]}}}}
< {"done":true}
> {"op":"read_box","path":"/b","box":[[0,1]]}
> {"op":"write_box","path":"/b","box":[[0,1]],"cells":[1]}
> {"op":"read_chunk","path":"/b","chunk":[0]}
> {"op":"erase_chunks","path":"/b","box":[[0,1]]}
< {"applied":0,"refused":"Size"}
> {"op":"write_box","path":"/b","box":[[0,1]],"cells":[1,2]}
< {"applied":0,"refused":"Data"}
> {"op":"write_box","path":"/b","box":[[0,0]],"cells":[]}
> {"op":"erase_chunks","path":"/b","box":[[0,0]]}
< {"done":true}
> {"op":"read_box","path":"/b","box":[[0,0]]}
< {"cells":[]}
# Boxes of 2^63 cells, and of 2^63 chunks.
> {"op":"create","path":"/c","document":$zeros{"shape":[18446744073709551615],"chunk_grid":{"name":"regular","configuration":{"chunk_shape":[1]}}}}
< {"done":true}
> {"op":"read_box","path":"/c","box":[[0,9223372036854775808]]}
> {"op":"erase_chunks","path":"/c","box":[[0,9223372036854775808]]}
< {"applied":0,"refused":"Size"}

after:
  a/zarr.json = $stored{"shape":[18446744073709551615],"chunk_grid":{"name":"regular","configuration":{"chunk_shape":[4611686018427387904]}}}
  b/zarr.json = $stored{"shape":[18446744073709551615],"chunk_grid":{"name":"regular","configuration":{"chunk_shape":[9223372036854775808]}}}
  c/zarr.json = $stored{"shape":[18446744073709551615],"chunk_grid":{"name":"regular","configuration":{"chunk_shape":[1]}}}
