A compaction of a chunk whose codecs make no shard changes nothing: there are no gaps in it. Its value isn't decoded.

before:
  a/c/0/1 = 01

> {"op":"create","path":"/a","document":$zeros}
> {"op":"write_chunk","path":"/a","chunk":[0,0],"cells":[0,0,0,1]}
> {"op":"write_chunk","path":"/a","chunk":[1,0],"cells":[0,0,0,0],"options":{"empty":true}}
< {"done":true}
> {"op":"compact","path":"/a","chunk":[0,0]}
> {"op":"compact","path":"/a","chunk":[1,0],"options":{}}
# A value of a wrong length, and no value.
> {"op":"compact","path":"/a","chunk":[0,1]}
> {"op":"compact","path":"/a","chunk":[1,1],"options":{"partial":true,"empty":true,"workers":true}}
< {"compacted":false}
> {"op":"create","path":"/b","document":$zeros{"shape":[3],"data_type":"uint16","chunk_grid":{"name":"regular","configuration":{"chunk_shape":[2]}},"codecs":[{"name":"bytes","configuration":{"endian":"little"}},"x-reverse"]}}
> {"op":"write_box","path":"/b","box":[[0,3]],"cells":[1,2,3]}
< {"done":true}
> {"op":"compact","path":"/b","chunk":[1]}
< {"compacted":false}

after:
  a/c/0/0 = 00 00 00 01
  a/c/0/1 = 01
  a/c/1/0 = 00 00 00 00
  a/zarr.json = $stored
  b/c/0 = 00 02 00 01
  b/c/1 = 00 00 00 03
  b/zarr.json = $stored{"shape":[3],"data_type":"uint16","chunk_grid":{"name":"regular","configuration":{"chunk_shape":[2]}},"codecs":[{"name":"bytes","configuration":{"endian":"little"}},"x-reverse"]}

# The store refuses to read the value: a reopening reads once.
before:
  refuse read 2

> {"op":"reopen","path":"/a"}
< {"done":true}
> {"op":"compact","path":"/a","chunk":[0,0]}
< {"applied":0,"refused":"Store"}
> {"op":"compact","path":"/a","chunk":[0,0]}
< {"compacted":false}

after: as before
