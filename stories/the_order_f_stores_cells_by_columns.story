In the order F the cells of a chunk are stored by columns, and a part that is written into it finds its place there.

> {"op":"create","path":"/t","document":$version_2{"shape":[2,3],"chunks":[2,3],"order":"F"}}
> {"op":"write_box","path":"/t","box":[[0,2],[0,3]],"cells":[1,2,3,4,5,6]}
> {"op":"create","path":"/u","document":$version_2{"shape":[2,2,2],"chunks":[2,2,2],"order":"F"}}
> {"op":"write_chunk","path":"/u","chunk":[0,0,0],"cells":[1,2,3,4,5,6,7,8]}
< {"done":true}
> {"op":"read_box","path":"/t","box":[[0,2],[1,2]]}
< {"cells":[2,5]}
> {"op":"write_box","path":"/t","box":[[0,1],[1,2]],"cells":[9],"options":{"partial":true}}
< {"done":true}
> {"op":"read_chunk","path":"/t","chunk":[0,0]}
< {"cells":[1,9,3,4,5,6]}
> {"op":"read_box","path":"/u","box":[[0,2],[1,2],[0,1]]}
< {"cells":[3,7]}

after:
  t/.zarray = $zarray{"shape":[2,3],"chunks":[2,3],"order":"F"}
  t/.zattrs = $zattrs
  t/0.0 = 01 04 09 05 03 06
  u/.zarray = $zarray{"shape":[2,2,2],"chunks":[2,2,2],"order":"F"}
  u/.zattrs = $zattrs
  u/0.0.0 = 01 05 03 07 02 06 04 08
