With the option for partial encoding, a part is put into a shard whose present pairs all lie in its data, and of which the subchunks that it meets are decoded. Others aren't looked at.

# A pair past the end; a value that ends in its index; a pair that is too long, or begins too far off; one that points into the index; both at one slice; an inner shard that is shorter than its index; a byte that is no boolean.
before:
  past/c/0 = 0102 0000000000000000 0200000000000000 6400000000000000 0200000000000000
  cut/c/0 = 0102 00
  long/c/0 = 0102 0000000000000000 0200000000000000 0000000000000000 ffffffffffffffff
  far/c/0 = 0102 0000000000000000 0200000000000000 ffffffffffffffff 0000000000000000
  inside/c/0 = 0102 0000000000000000 0200000000000000 0200000000000000 0200000000000000
  twice/c/0 = 0102 0000000000000000 0200000000000000 0000000000000000 0200000000000000
  inner/c/0 = 01 0000000000000000 0100000000000000 ffffffffffffffff ffffffffffffffff 0203 0000000000000000 2100000000000000 2100000000000000 0200000000000000
  byte/c/0 = 0100 0002 0000000000000000 0200000000000000 0200000000000000 0200000000000000
  past/zarr.json = $stored_shard
  cut/zarr.json = $stored_shard
  long/zarr.json = $stored_shard
  far/zarr.json = $stored_shard
  inside/zarr.json = $stored_shard
  twice/zarr.json = $stored_shard
  inner/zarr.json = $stored_shard{"codecs":[{"name":"sharding_indexed","configuration":{"chunk_shape":[2],"codecs":[{"name":"sharding_indexed","configuration":{"chunk_shape":[1],"codecs":["bytes"],"index_codecs":[{"name":"bytes","configuration":{"endian":"little"}}]}}],"index_codecs":[{"name":"bytes","configuration":{"endian":"little"}}]}}]}
  byte/zarr.json = $stored_shard{"data_type":"bool","fill_value":false}

> {"op":"reopen","path":"/past","order":"C"}
> {"op":"reopen","path":"/cut","order":"C"}
> {"op":"reopen","path":"/long","order":"C"}
> {"op":"reopen","path":"/far","order":"C"}
> {"op":"reopen","path":"/inside","order":"C"}
> {"op":"reopen","path":"/inner","order":"C"}
> {"op":"reopen","path":"/byte","order":"C"}
< {"done":true}
> {"op":"write_box","path":"/past","box":[[0,1]],"cells":[9],"options":{"partial":true}}
> {"op":"write_box","path":"/cut","box":[[0,1]],"cells":[9],"options":{"partial":true}}
> {"op":"write_box","path":"/long","box":[[0,1]],"cells":[9],"options":{"partial":true}}
> {"op":"write_box","path":"/far","box":[[0,1]],"cells":[9],"options":{"partial":true}}
> {"op":"write_box","path":"/inside","box":[[0,1]],"cells":[9],"options":{"partial":true}}
# The damaged subchunk is met in part, or overwritten whole.
> {"op":"write_box","path":"/inner","box":[[2,3]],"cells":[9],"options":{"partial":true}}
> {"op":"write_box","path":"/inner","box":[[2,4]],"cells":[8,9],"options":{"partial":true}}
> {"op":"write_box","path":"/byte","box":[[1,3]],"cells":[true,true],"options":{"partial":true}}
> {"op":"write_box","path":"/byte","box":[[2,4]],"cells":[true,true],"options":{"partial":true}}
< {"applied":0,"refused":"Damage"}

after: as before

> {"op":"reopen","path":"/past","order":"C"}
> {"op":"reopen","path":"/twice","order":"C"}
> {"op":"reopen","path":"/inner","order":"C"}
> {"op":"reopen","path":"/byte","order":"C"}
> {"op":"write_box","path":"/twice","box":[[0,1]],"cells":[9],"options":{"partial":true}}
> {"op":"write_box","path":"/inner","box":[[0,1]],"cells":[9],"options":{"partial":true}}
> {"op":"write_box","path":"/byte","box":[[0,1]],"cells":[false],"options":{"partial":true}}
# A whole chunk is written whatever is stored for it.
> {"op":"write_box","path":"/past","box":[[0,4]],"cells":[5,6,7,8],"options":{"partial":true}}
< {"done":true}
> {"op":"read_box","path":"/twice","box":[[0,4]]}
< {"cells":[9,2,1,2]}
> {"op":"read_box","path":"/inner","box":[[0,2]]}
< {"cells":[9,0]}
> {"op":"read_box","path":"/byte","box":[[0,2]]}
< {"cells":[false,false]}
> {"op":"compact","path":"/twice","chunk":[0]}
< {"compacted":false}

after:
  past/c/0 = 0506 0708 0000000000000000 0200000000000000 0200000000000000 0200000000000000
  cut/c/0 = 0102 00
  long/c/0 = 0102 0000000000000000 0200000000000000 0000000000000000 ffffffffffffffff
  far/c/0 = 0102 0000000000000000 0200000000000000 ffffffffffffffff 0000000000000000
  inside/c/0 = 0102 0000000000000000 0200000000000000 0200000000000000 0200000000000000
  twice/c/0 = 0102 0902 0200000000000000 0200000000000000 0000000000000000 0200000000000000
  inner/c/0 = 01 0000000000000000 0100000000000000 ffffffffffffffff ffffffffffffffff 0203 09 0000000000000000 0100000000000000 ffffffffffffffff ffffffffffffffff 2300000000000000 2100000000000000 2100000000000000 0200000000000000
  byte/c/0 = 0100 0002 ffffffffffffffff ffffffffffffffff 0200000000000000 0200000000000000
  past/zarr.json = $stored_shard
  cut/zarr.json = $stored_shard
  long/zarr.json = $stored_shard
  far/zarr.json = $stored_shard
  inside/zarr.json = $stored_shard
  twice/zarr.json = $stored_shard
  inner/zarr.json = $stored_shard{"codecs":[{"name":"sharding_indexed","configuration":{"chunk_shape":[2],"codecs":[{"name":"sharding_indexed","configuration":{"chunk_shape":[1],"codecs":["bytes"],"index_codecs":[{"name":"bytes","configuration":{"endian":"little"}}]}}],"index_codecs":[{"name":"bytes","configuration":{"endian":"little"}}]}}]}
  byte/zarr.json = $stored_shard{"data_type":"bool","fill_value":false}
