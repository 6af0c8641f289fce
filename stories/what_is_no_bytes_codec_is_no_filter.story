A filter or compressor of version 2 that isn't known, that has a field which its codec doesn't take, that isn't a codec of bytes, or that isn't an object with an id, creates no array.

> {"op":"create","path":"/a","document":$version_2{"filters":[{"id":"unknown"}]}}
> {"op":"create","path":"/a","document":$version_2{"filters":[{"id":"x-reverse"},{"id":"unknown"}]}}
> {"op":"create","path":"/a","document":$version_2{"compressor":{"id":"zlib","level":1}}}
> {"op":"create","path":"/a","document":$version_2{"filters":[{"id":"x-reverse","level":1}]}}
> {"op":"create","path":"/a","document":$version_2{"filters":[{"name":"x-reverse"}]}}
> {"op":"create","path":"/a","document":$version_2{"filters":[{"id":1}]}}
> {"op":"create","path":"/a","document":$version_2{"filters":["x-reverse"]}}
> {"op":"create","path":"/a","document":$version_2{"filters":[null]}}
> {"op":"create","path":"/a","document":$version_2{"filters":{"id":"x-reverse"}}}
> {"op":"create","path":"/a","document":$version_2{"filters":"x-reverse"}}
> {"op":"create","path":"/a","document":$version_2{"filters":false}}
> {"op":"create","path":"/a","document":$version_2{"compressor":"x-reverse"}}
> {"op":"create","path":"/a","document":$version_2{"compressor":[{"id":"x-reverse"}]}}
> {"op":"create","path":"/a","document":$version_2{"compressor":false}}
> {"op":"create","path":"/a","document":$version_2{"compressor":{"name":"x-reverse"}}}
# Codecs of arrays are none of bytes.
> {"op":"create","path":"/a","document":$version_2{"filters":[{"id":"bytes"}]}}
> {"op":"create","path":"/a","document":$version_2{"filters":[{"id":"transpose","order":[1,0]}]}}
> {"op":"create","path":"/a","document":$version_2{"compressor":{"id":"packbits"}}}
< {"applied":0,"refused":"Document"}
> {"op":"read_box","path":"/a","box":[[0,1],[0,1]]}
> {"op":"reopen","path":"/a"}
< {"applied":0,"refused":"NoArray"}

after: as before
