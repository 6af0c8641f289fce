A rewrite that comes upon damage, or upon a chunk that doesn't fit its codecs, has stored the chunks before it anew, and says how many of those had a key.

before:
  a/c/0/1 = 00 00 00 00
  a/c/1/0 = 09
  a/c/1/1 = 00 00 00 00

> {"op":"create","path":"/a","document":$zeros}
< {"done":true}
> {"op":"rewrite","path":"/a"}
< {"applied":1,"refused":"Damage"}
# The chunk is in the way until it is erased.
> {"op":"rewrite","path":"/a"}
< {"applied":0,"refused":"Damage"}

after:
  a/c/1/0 = 09
  a/c/1/1 = 00 00 00 00
  a/zarr.json = $stored

> {"op":"reopen","path":"/a"}
> {"op":"erase_chunks","path":"/a","box":[[1,2],[0,1]]}
> {"op":"rewrite","path":"/a"}
< {"done":true}

after:
  a/zarr.json = $stored

# Cells of two bytes without a byte order: a chunk without a key is passed over.
before:
  b/c/1 = 01 00 02 00

> {"op":"create","path":"/b","document":$zeros{"shape":[4],"data_type":"uint16","chunk_grid":{"name":"regular","configuration":{"chunk_shape":[2]}},"fill_value":7}}
< {"done":true}
> {"op":"rewrite","path":"/b"}
< {"applied":0,"refused":"Fit"}
> {"op":"erase_chunks","path":"/b","box":[[1,2]]}
> {"op":"rewrite","path":"/b"}
< {"done":true}

after:
  a/zarr.json = $stored
  b/zarr.json = $stored{"shape":[4],"data_type":"uint16","chunk_grid":{"name":"regular","configuration":{"chunk_shape":[2]}},"fill_value":7}

# Three shards, of which the first and the third have gaps, and the second has a pair past its end.
before:
  s/c/0 = 0102 63 0000000000000000 0200000000000000 ffffffffffffffff ffffffffffffffff
  s/c/1 = 0304 0000000000000000 0200000000000000 6400000000000000 0200000000000000
  s/c/2 = 63 0506 0100000000000000 0200000000000000 ffffffffffffffff ffffffffffffffff
  s/zarr.json = $stored_shard{"shape":[12]}

> {"op":"reopen","path":"/s","order":"C"}
< {"done":true}
> {"op":"rewrite","path":"/s"}
< {"applied":1,"refused":"Damage"}

after:
  a/zarr.json = $stored
  b/zarr.json = $stored{"shape":[4],"data_type":"uint16","chunk_grid":{"name":"regular","configuration":{"chunk_shape":[2]}},"fill_value":7}
  s/c/0 = 0102 0000000000000000 0200000000000000 ffffffffffffffff ffffffffffffffff
  s/c/1 = 0304 0000000000000000 0200000000000000 6400000000000000 0200000000000000
  s/c/2 = 63 0506 0100000000000000 0200000000000000 ffffffffffffffff ffffffffffffffff
  s/zarr.json = $stored_shard{"shape":[12]}

> {"op":"reopen","path":"/s","order":"C"}
> {"op":"write_chunk","path":"/s","chunk":[1],"cells":[3,4,0,0]}
> {"op":"rewrite","path":"/s"}
< {"done":true}

after:
  a/zarr.json = $stored
  b/zarr.json = $stored{"shape":[4],"data_type":"uint16","chunk_grid":{"name":"regular","configuration":{"chunk_shape":[2]}},"fill_value":7}
  s/c/0 = 0102 0000000000000000 0200000000000000 ffffffffffffffff ffffffffffffffff
  s/c/1 = 0304 0000000000000000 0200000000000000 ffffffffffffffff ffffffffffffffff
  s/c/2 = 0506 0000000000000000 0200000000000000 ffffffffffffffff ffffffffffffffff
  s/zarr.json = $stored_shard{"shape":[12]}
