A compaction or a rewrite at a path without an array, of a chunk past the grid, or of chunks that are too large or don't fit, changes nothing.

before:
  b/c/1 = 01 00 02 00
  d/c/1 = 00

> {"op":"compact","path":"a","chunk":[0,0]}
> {"op":"rewrite","path":"a/"}
< {"applied":0,"refused":"Path"}
> {"op":"compact","path":"/a","chunk":[]}
> {"op":"rewrite","path":"/a"}
< {"applied":0,"refused":"NoArray"}
> {"op":"create","path":"/a","document":$zeros}
< {"done":true}
> {"op":"compact","path":"/a/b","chunk":[0,0]}
> {"op":"rewrite","path":"/"}
< {"applied":0,"refused":"NoArray"}
> {"op":"compact","path":"/a","chunk":[2,0]}
> {"op":"compact","path":"/a","chunk":[0,18446744073709551615]}
> {"op":"compact","path":"/a","chunk":[]}
> {"op":"compact","path":"/a","chunk":[0]}
> {"op":"compact","path":"/a","chunk":[0,0,0]}
< {"applied":0,"refused":"Region"}
# Cells of two bytes without a byte order don't fit; where no chunk is stored that isn't met.
> {"op":"create","path":"/b","document":$zeros{"shape":[4],"data_type":"uint16","chunk_grid":{"name":"regular","configuration":{"chunk_shape":[2]}},"fill_value":7}}
< {"done":true}
> {"op":"compact","path":"/b","chunk":[1]}
> {"op":"rewrite","path":"/b"}
< {"applied":0,"refused":"Fit"}
> {"op":"compact","path":"/b","chunk":[0]}
< {"compacted":false}
# The fourth chunk of 2^62 cells would end at 2^64.
> {"op":"create","path":"/c","document":$zeros{"shape":[18446744073709551615],"chunk_grid":{"name":"regular","configuration":{"chunk_shape":[4611686018427387904]}}}}
< {"done":true}
> {"op":"compact","path":"/c","chunk":[3]}
< {"applied":0,"refused":"Region"}
> {"op":"compact","path":"/c","chunk":[2]}
< {"compacted":false}
> {"op":"rewrite","path":"/c"}
< {"done":true}
# Chunks of 2^63 bytes are too large: for a rewrite, where one of them has a key.
> {"op":"create","path":"/d","document":$zeros{"shape":[18446744073709551615],"data_type":"int64","chunk_grid":{"name":"regular","configuration":{"chunk_shape":[1152921504606846976]}},"codecs":[{"name":"bytes","configuration":{"endian":"little"}}]}}
< {"done":true}
> {"op":"compact","path":"/d","chunk":[0]}
> {"op":"rewrite","path":"/d"}
< {"applied":0,"refused":"Size"}
> {"op":"create","path":"/e","document":$zeros{"shape":[18446744073709551615],"data_type":"int64","chunk_grid":{"name":"regular","configuration":{"chunk_shape":[1152921504606846976]}},"codecs":[{"name":"bytes","configuration":{"endian":"little"}}]}}
> {"op":"rewrite","path":"/e"}
< {"done":true}
# 2^63 chunks are too many.
> {"op":"create","path":"/f","document":$zeros{"shape":[9223372036854775808],"chunk_grid":{"name":"regular","configuration":{"chunk_shape":[1]}}}}
< {"done":true}
> {"op":"rewrite","path":"/f"}
< {"applied":0,"refused":"Size"}
> {"op":"compact","path":"/f","chunk":[9223372036854775807]}
< {"compacted":false}

after:
  a/zarr.json = $stored
  b/c/1 = 01 00 02 00
  b/zarr.json = $stored{"shape":[4],"data_type":"uint16","chunk_grid":{"name":"regular","configuration":{"chunk_shape":[2]}},"fill_value":7}
  c/zarr.json = $stored{"shape":[18446744073709551615],"chunk_grid":{"name":"regular","configuration":{"chunk_shape":[4611686018427387904]}}}
  d/c/1 = 00
  d/zarr.json = $stored{"shape":[18446744073709551615],"data_type":"int64","chunk_grid":{"name":"regular","configuration":{"chunk_shape":[1152921504606846976]}},"codecs":[{"name":"bytes","configuration":{"endian":"little"}}]}
  e/zarr.json = $stored{"shape":[18446744073709551615],"data_type":"int64","chunk_grid":{"name":"regular","configuration":{"chunk_shape":[1152921504606846976]}},"codecs":[{"name":"bytes","configuration":{"endian":"little"}}]}
  f/zarr.json = $stored{"shape":[9223372036854775808],"chunk_grid":{"name":"regular","configuration":{"chunk_shape":[1]}}}
