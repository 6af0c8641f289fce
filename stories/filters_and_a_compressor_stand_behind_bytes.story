The filters of a document of version 2 and then its compressor stand behind the cells' bytes: an object each, whose id names the codec.

> {"op":"create","path":"/a","document":$version_2{"filters":[{"id":"x-reverse"}]}}
> {"op":"write_chunk","path":"/a","chunk":[0,0],"cells":[1,2,3,4]}
> {"op":"create","path":"/b","document":$version_2{"compressor":{"id":"x-reverse"},"order":"F"}}
> {"op":"write_chunk","path":"/b","chunk":[0,0],"cells":[1,2,3,4]}
> {"op":"create","path":"/c","document":$version_2{"filters":[{"id":"x-reverse"}],"compressor":{"id":"x-reverse"}}}
> {"op":"write_chunk","path":"/c","chunk":[0,0],"cells":[1,2,3,4]}
> {"op":"create","path":"/d","document":$version_2{"filters":[],"compressor":null}}
> {"op":"write_chunk","path":"/d","chunk":[0,0],"cells":[1,2,3,4]}
< {"done":true}
> {"op":"read_chunk","path":"/a","chunk":[0,0]}
> {"op":"read_chunk","path":"/b","chunk":[0,0]}
> {"op":"read_chunk","path":"/c","chunk":[0,0]}
> {"op":"read_chunk","path":"/d","chunk":[0,0]}
< {"cells":[1,2,3,4]}

after:
  a/.zarray = $zarray{"filters":[{"id":"x-reverse"}]}
  a/.zattrs = $zattrs
  a/0.0 = 04 03 02 01
  b/.zarray = $zarray{"compressor":{"id":"x-reverse"},"order":"F"}
  b/.zattrs = $zattrs
  b/0.0 = 04 02 03 01
  c/.zarray = $zarray{"filters":[{"id":"x-reverse"}],"compressor":{"id":"x-reverse"}}
  c/.zattrs = $zattrs
  c/0.0 = 01 02 03 04
  d/.zarray = $zarray{"filters":[]}
  d/.zattrs = $zattrs
  d/0.0 = 01 02 03 04
