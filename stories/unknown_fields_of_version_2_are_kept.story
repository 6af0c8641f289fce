Fields of a document of version 2 that aren't known are stored as they were given, and are no reason to refuse it.

> {"op":"create","path":"/a","document":$version_2{"note":{"must_understand":true},"node_type":"group","storage_transformers":["x"],"dimension_names":null,"codecs":[],"must_understand":true}}
< {"done":true}
> {"op":"write_chunk","path":"/a","chunk":[1,1],"cells":[1,2,3,4]}
< {"done":true}
# But none holds a number that isn't whole.
> {"op":"create","path":"/b","document":$version_2{"note":{"level":0.5}}}
< {"applied":0,"refused":"Document"}

after:
  a/.zarray = $zarray{"note":{"must_understand":true},"node_type":"group","storage_transformers":["x"],"dimension_names":null,"codecs":[],"must_understand":true}
  a/.zattrs = $zattrs
  a/1.1 = 01 02 03 04

> {"op":"reopen","path":"/a"}
< {"done":true}
> {"op":"read_chunk","path":"/a","chunk":[1,1]}
< {"cells":[1,2,3,4]}

after: as before
