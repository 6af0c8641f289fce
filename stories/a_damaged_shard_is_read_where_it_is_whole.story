Of a shard whose index points outside of it, the subchunks are read that stand in it; one that is shorter than its index isn't read at all.

# The second pair begins past the end; the value ends in its index; the second pair is too long, or begins too far off; it points into the index; both point to one slice; an inner shard is shorter than its index.
before:
  past/c/0 = 0102 0000000000000000 0200000000000000 6400000000000000 0200000000000000
  cut/c/0 = 0102 00
  long/c/0 = 0102 0000000000000000 0200000000000000 0000000000000000 ffffffffffffffff
  far/c/0 = 0102 0000000000000000 0200000000000000 ffffffffffffffff 0000000000000000
  inside/c/0 = 0102 0000000000000000 0200000000000000 0200000000000000 0200000000000000
  twice/c/0 = 0102 0000000000000000 0200000000000000 0000000000000000 0200000000000000
  inner/c/0 = 01 0000000000000000 0100000000000000 ffffffffffffffff ffffffffffffffff 0203 0000000000000000 2100000000000000 2100000000000000 0200000000000000
  past/zarr.json = $stored_shard
  cut/zarr.json = $stored_shard
  long/zarr.json = $stored_shard
  far/zarr.json = $stored_shard
  inside/zarr.json = $stored_shard
  twice/zarr.json = $stored_shard
  inner/zarr.json = $stored_shard{"codecs":[{"name":"sharding_indexed","configuration":{"chunk_shape":[2],"codecs":[{"name":"sharding_indexed","configuration":{"chunk_shape":[1],"codecs":["bytes"],"index_codecs":[{"name":"bytes","configuration":{"endian":"little"}}]}}],"index_codecs":[{"name":"bytes","configuration":{"endian":"little"}}]}}]}

> {"op":"reopen","path":"/past"}
> {"op":"reopen","path":"/cut"}
> {"op":"reopen","path":"/long"}
> {"op":"reopen","path":"/far"}
> {"op":"reopen","path":"/inside"}
> {"op":"reopen","path":"/twice"}
> {"op":"reopen","path":"/inner"}
< {"done":true}
> {"op":"read_box","path":"/past","box":[[0,2]]}
> {"op":"read_box","path":"/long","box":[[0,2]]}
> {"op":"read_box","path":"/far","box":[[0,2]]}
< {"cells":[1,2]}
> {"op":"read_box","path":"/inner","box":[[0,2]]}
< {"cells":[1,0]}
> {"op":"read_box","path":"/inside","box":[[0,4]]}
< {"cells":[1,2,0,0]}
> {"op":"read_box","path":"/twice","box":[[0,4]]}
< {"cells":[1,2,1,2]}
> {"op":"read_box","path":"/past","box":[[0,4]]}
> {"op":"read_box","path":"/past","box":[[1,3]]}
> {"op":"read_chunk","path":"/past","chunk":[0]}
> {"op":"read_box","path":"/long","box":[[2,4]]}
> {"op":"read_box","path":"/far","box":[[2,4]]}
> {"op":"read_box","path":"/inner","box":[[2,3]]}
> {"op":"read_box","path":"/cut","box":[[0,1]]}
> {"op":"read_box","path":"/cut","box":[[3,4]]}
> {"op":"read_chunk","path":"/cut","chunk":[0]}
# A part is written only where the whole chunk is read, or, with `partial`, where its shard's present slices lie in the value and those met are decoded.
> {"op":"write_box","path":"/past","box":[[0,1]],"cells":[9]}
> {"op":"write_box","path":"/past","box":[[0,1]],"cells":[9],"options":{"partial":true}}
> {"op":"write_box","path":"/long","box":[[0,1]],"cells":[9]}
> {"op":"write_box","path":"/far","box":[[0,1]],"cells":[9]}
> {"op":"write_box","path":"/inner","box":[[0,1]],"cells":[9]}
> {"op":"write_box","path":"/cut","box":[[0,1]],"cells":[9]}
> {"op":"write_box","path":"/cut","box":[[0,1]],"cells":[9],"options":{"partial":true}}
< {"applied":0,"refused":"Damage"}
# No place is met.
> {"op":"read_box","path":"/cut","box":[[2,2]]}
< {"cells":[]}

after: as before

> {"op":"reopen","path":"/past","order":"C"}
> {"op":"reopen","path":"/cut","order":"C"}
> {"op":"reopen","path":"/long","order":"C"}
> {"op":"reopen","path":"/far","order":"C"}
> {"op":"reopen","path":"/inside","order":"C"}
> {"op":"reopen","path":"/twice","order":"C"}
> {"op":"reopen","path":"/inner","order":"C"}
> {"op":"write_box","path":"/inside","box":[[0,1]],"cells":[9]}
> {"op":"write_box","path":"/twice","box":[[0,1]],"cells":[9]}
# Whole chunks are written over damaged ones, and these are erased.
> {"op":"write_chunk","path":"/past","chunk":[0],"cells":[5,6,7,8]}
> {"op":"write_box","path":"/cut","box":[[0,4]],"cells":[0,0,7,8]}
> {"op":"erase_chunks","path":"/long","box":[[0,1]]}
> {"op":"write_chunk","path":"/far","chunk":[0],"cells":[0,0,0,0]}
> {"op":"erase_chunks","path":"/inner","box":[[0,1]]}
< {"done":true}
> {"op":"read_box","path":"/inside","box":[[0,4]]}
< {"cells":[9,2,0,0]}
> {"op":"read_box","path":"/twice","box":[[0,4]]}
< {"cells":[9,2,1,2]}

after:
  past/c/0 = 0506 0708 0000000000000000 0200000000000000 0200000000000000 0200000000000000
  cut/c/0 = 0708 ffffffffffffffff ffffffffffffffff 0000000000000000 0200000000000000
  inside/c/0 = 0902 0000000000000000 0200000000000000 ffffffffffffffff ffffffffffffffff
  twice/c/0 = 0902 0102 0000000000000000 0200000000000000 0200000000000000 0200000000000000
  past/zarr.json = $stored_shard
  cut/zarr.json = $stored_shard
  long/zarr.json = $stored_shard
  far/zarr.json = $stored_shard
  inside/zarr.json = $stored_shard
  twice/zarr.json = $stored_shard
  inner/zarr.json = $stored_shard{"codecs":[{"name":"sharding_indexed","configuration":{"chunk_shape":[2],"codecs":[{"name":"sharding_indexed","configuration":{"chunk_shape":[1],"codecs":["bytes"],"index_codecs":[{"name":"bytes","configuration":{"endian":"little"}}]}}],"index_codecs":[{"name":"bytes","configuration":{"endian":"little"}}]}}]}
