An array may have 2^64 - 1 places, and its last chunk is written, read and erased as any other.

> {"op":"create","path":"/a","document":$zeros{"shape":[18446744073709551615],"chunk_grid":{"name":"regular","configuration":{"chunk_shape":[1]}}}}
> {"op":"write_chunk","path":"/a","chunk":[18446744073709551614],"cells":[7]}
> {"op":"write_box","path":"/a","box":[[18446744073709551612,18446744073709551614]],"cells":[5,6]}
> {"op":"erase_chunks","path":"/a","box":[[18446744073709551613,18446744073709551614]]}
< {"done":true}
> {"op":"read_box","path":"/a","box":[[18446744073709551611,18446744073709551615]]}
< {"cells":[0,5,0,7]}
> {"op":"read_chunk","path":"/a","chunk":[18446744073709551614]}
< {"cells":[7]}
> {"op":"read_chunk","path":"/a","chunk":[18446744073709551615]}
> {"op":"erase_chunks","path":"/a","box":[[18446744073709551615,18446744073709551615],[0,0]]}
< {"applied":0,"refused":"Region"}
> {"op":"erase_chunks","path":"/a","box":[[18446744073709551615,18446744073709551615]]}
< {"done":true}

after:
  a/c/18446744073709551612 = 05
  a/c/18446744073709551614 = 07
  a/zarr.json = $stored{"shape":[18446744073709551615],"chunk_grid":{"name":"regular","configuration":{"chunk_shape":[1]}}}
