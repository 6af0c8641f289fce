Where the keys of chunks end with /.zattrs, attributes that a refused create left are read as a chunk.

before:
  refuse write 2

> {"op":"create","path":"/a/c/0","document":$version_2}
< {"applied":0,"refused":"Store"}

after:
  a/c/0/.zattrs = $zattrs

> {"op":"create","path":"/a","document":$zeros{"shape":[4],"chunk_grid":{"name":"regular","configuration":{"chunk_shape":[2]}},"chunk_key_encoding":{"name":"default_suffix","configuration":{"suffix":"/.zattrs"}}}}
< {"done":true}
> {"op":"read_chunk","path":"/a","chunk":[0]}
< {"applied":0,"refused":"Damage"}
> {"op":"read_chunk","path":"/a","chunk":[1]}
< {"cells":[0,0]}
> {"op":"write_chunk","path":"/a","chunk":[0],"cells":[1,2]}
< {"done":true}
> {"op":"read_chunk","path":"/a","chunk":[0]}
< {"cells":[1,2]}

after:
  a/c/0/.zattrs = 01 02
  a/zarr.json = $stored{"shape":[4],"chunk_grid":{"name":"regular","configuration":{"chunk_shape":[2]}},"chunk_key_encoding":{"name":"default_suffix","configuration":{"suffix":"/.zattrs"}}}
