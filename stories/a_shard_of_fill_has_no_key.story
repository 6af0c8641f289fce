A shard that is all fill has no key, at whatever depth its subchunks stand. Where empty chunks are asked for it is stored, but its subchunks aren't: its index alone is there.

> {"op":"create","path":"/a","document":$zeros{"shape":[8],"chunk_grid":{"name":"regular","configuration":{"chunk_shape":[4]}},"fill_value":7,"codecs":[{"name":"sharding_indexed","configuration":{"chunk_shape":[2],"codecs":["bytes"],"index_codecs":[{"name":"bytes","configuration":{"endian":"little"}}]}}]},"order":"C"}
> {"op":"create","path":"/n","document":$zeros{"shape":[4,4],"chunk_grid":{"name":"regular","configuration":{"chunk_shape":[4,4]}},"codecs":[{"name":"sharding_indexed","configuration":{"chunk_shape":[2,2],"codecs":[{"name":"sharding_indexed","configuration":{"chunk_shape":[1,2],"codecs":["bytes"],"index_codecs":[{"name":"bytes","configuration":{"endian":"little"}}]}}],"index_codecs":[{"name":"bytes","configuration":{"endian":"little"}}]}}]},"order":"C"}
> {"op":"write_box","path":"/a","box":[[0,8]],"cells":[7,7,7,7,7,7,7,7]}
> {"op":"write_chunk","path":"/n","chunk":[0,0],"cells":[0,0,0,0,0,0,0,0,0,0,0,0,0,0,0,0]}
< {"done":true}
> {"op":"read_box","path":"/a","box":[[3,5]]}
< {"cells":[7,7]}

after:
  a/zarr.json = $stored{"shape":[8],"chunk_grid":{"name":"regular","configuration":{"chunk_shape":[4]}},"fill_value":7,"codecs":[{"name":"sharding_indexed","configuration":{"chunk_shape":[2],"codecs":["bytes"],"index_codecs":[{"name":"bytes","configuration":{"endian":"little"}}]}}]}
  n/zarr.json = $stored{"shape":[4,4],"chunk_grid":{"name":"regular","configuration":{"chunk_shape":[4,4]}},"codecs":[{"name":"sharding_indexed","configuration":{"chunk_shape":[2,2],"codecs":[{"name":"sharding_indexed","configuration":{"chunk_shape":[1,2],"codecs":["bytes"],"index_codecs":[{"name":"bytes","configuration":{"endian":"little"}}]}}],"index_codecs":[{"name":"bytes","configuration":{"endian":"little"}}]}}]}

# A chunk that was stored loses its key once the last of its cells is fill.
> {"op":"reopen","path":"/a","order":"C"}
> {"op":"reopen","path":"/n","order":"C"}
> {"op":"write_box","path":"/a","box":[[2,6]],"cells":[1,2,3,4]}
> {"op":"write_box","path":"/a","box":[[2,3]],"cells":[7]}
> {"op":"write_box","path":"/a","box":[[3,4]],"cells":[7]}
> {"op":"write_box","path":"/n","box":[[3,4],[3,4]],"cells":[5]}
> {"op":"write_box","path":"/n","box":[[2,4],[2,4]],"cells":[0,0,0,0]}
< {"done":true}

after:
  a/c/1 = 0304 0000000000000000 0200000000000000 ffffffffffffffff ffffffffffffffff
  a/zarr.json = $stored{"shape":[8],"chunk_grid":{"name":"regular","configuration":{"chunk_shape":[4]}},"fill_value":7,"codecs":[{"name":"sharding_indexed","configuration":{"chunk_shape":[2],"codecs":["bytes"],"index_codecs":[{"name":"bytes","configuration":{"endian":"little"}}]}}]}
  n/zarr.json = $stored{"shape":[4,4],"chunk_grid":{"name":"regular","configuration":{"chunk_shape":[4,4]}},"codecs":[{"name":"sharding_indexed","configuration":{"chunk_shape":[2,2],"codecs":[{"name":"sharding_indexed","configuration":{"chunk_shape":[1,2],"codecs":["bytes"],"index_codecs":[{"name":"bytes","configuration":{"endian":"little"}}]}}],"index_codecs":[{"name":"bytes","configuration":{"endian":"little"}}]}}]}

# An erasure takes the other one, and empty chunks are stored on request.
> {"op":"reopen","path":"/a","order":"C"}
> {"op":"reopen","path":"/n","order":"C"}
> {"op":"erase_chunks","path":"/a","box":[[1,2]]}
> {"op":"write_chunk","path":"/a","chunk":[0],"cells":[7,7,7,7],"options":{"empty":true}}
> {"op":"write_box","path":"/n","box":[[1,2],[1,2]],"cells":[0],"options":{"empty":true}}
< {"done":true}
> {"op":"read_box","path":"/a","box":[[0,8]]}
< {"cells":[7,7,7,7,7,7,7,7]}

after:
  a/c/0 = ffffffffffffffff ffffffffffffffff ffffffffffffffff ffffffffffffffff
  a/zarr.json = $stored{"shape":[8],"chunk_grid":{"name":"regular","configuration":{"chunk_shape":[4]}},"fill_value":7,"codecs":[{"name":"sharding_indexed","configuration":{"chunk_shape":[2],"codecs":["bytes"],"index_codecs":[{"name":"bytes","configuration":{"endian":"little"}}]}}]}
  n/c/0/0 = ffffffffffffffff ffffffffffffffff ffffffffffffffff ffffffffffffffff ffffffffffffffff ffffffffffffffff ffffffffffffffff ffffffffffffffff
  n/zarr.json = $stored{"shape":[4,4],"chunk_grid":{"name":"regular","configuration":{"chunk_shape":[4,4]}},"codecs":[{"name":"sharding_indexed","configuration":{"chunk_shape":[2,2],"codecs":[{"name":"sharding_indexed","configuration":{"chunk_shape":[1,2],"codecs":["bytes"],"index_codecs":[{"name":"bytes","configuration":{"endian":"little"}}]}}],"index_codecs":[{"name":"bytes","configuration":{"endian":"little"}}]}}]}

# They are taken away as others are.
> {"op":"reopen","path":"/n"}
> {"op":"write_box","path":"/n","box":[[0,1],[0,1]],"cells":[0]}
< {"done":true}

after:
  a/c/0 = ffffffffffffffff ffffffffffffffff ffffffffffffffff ffffffffffffffff
  a/zarr.json = $stored{"shape":[8],"chunk_grid":{"name":"regular","configuration":{"chunk_shape":[4]}},"fill_value":7,"codecs":[{"name":"sharding_indexed","configuration":{"chunk_shape":[2],"codecs":["bytes"],"index_codecs":[{"name":"bytes","configuration":{"endian":"little"}}]}}]}
  n/zarr.json = $stored{"shape":[4,4],"chunk_grid":{"name":"regular","configuration":{"chunk_shape":[4,4]}},"codecs":[{"name":"sharding_indexed","configuration":{"chunk_shape":[2,2],"codecs":[{"name":"sharding_indexed","configuration":{"chunk_shape":[1,2],"codecs":["bytes"],"index_codecs":[{"name":"bytes","configuration":{"endian":"little"}}]}}],"index_codecs":[{"name":"bytes","configuration":{"endian":"little"}}]}}]}

# A rewrite that stores empty chunks leaves them as they are, and there is no gap in an index alone. Another rewrite takes their keys.
> {"op":"reopen","path":"/a","order":"C"}
> {"op":"reopen","path":"/n","order":"C"}
> {"op":"rewrite","path":"/a","options":{"empty":true}}
> {"op":"rewrite","path":"/n","options":{"empty":true}}
< {"done":true}
> {"op":"compact","path":"/a","chunk":[0]}
> {"op":"compact","path":"/n","chunk":[0,0]}
< {"compacted":false}

after: as before

> {"op":"reopen","path":"/a","order":"C"}
> {"op":"reopen","path":"/n","order":"C"}
> {"op":"rewrite","path":"/a"}
> {"op":"rewrite","path":"/n"}
< {"done":true}
> {"op":"read_box","path":"/a","box":[[0,8]]}
< {"cells":[7,7,7,7,7,7,7,7]}

after:
  a/zarr.json = $stored{"shape":[8],"chunk_grid":{"name":"regular","configuration":{"chunk_shape":[4]}},"fill_value":7,"codecs":[{"name":"sharding_indexed","configuration":{"chunk_shape":[2],"codecs":["bytes"],"index_codecs":[{"name":"bytes","configuration":{"endian":"little"}}]}}]}
  n/zarr.json = $stored{"shape":[4,4],"chunk_grid":{"name":"regular","configuration":{"chunk_shape":[4,4]}},"codecs":[{"name":"sharding_indexed","configuration":{"chunk_shape":[2,2],"codecs":[{"name":"sharding_indexed","configuration":{"chunk_shape":[1,2],"codecs":["bytes"],"index_codecs":[{"name":"bytes","configuration":{"endian":"little"}}]}}],"index_codecs":[{"name":"bytes","configuration":{"endian":"little"}}]}}]}
