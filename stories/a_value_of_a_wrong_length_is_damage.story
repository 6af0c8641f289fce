A stored value of a wrong length is damage, until the whole chunk is written.

before:
  a/c/0/0 =
  b/c/0/0 = 01 02 03
  c/c/0/0 = 01 02 03 04 05

> {"op":"create","path":"/a","document":$zeros}
> {"op":"create","path":"/b","document":$zeros}
> {"op":"create","path":"/c","document":$zeros}
< {"done":true}
> {"op":"read_box","path":"/a","box":[[0,1],[0,1]]}
> {"op":"read_box","path":"/b","box":[[0,1],[0,1]]}
> {"op":"read_box","path":"/c","box":[[0,1],[0,1]]}
> {"op":"write_box","path":"/a","box":[[1,3],[1,3]],"cells":[1,2,3,4]}
> {"op":"write_box","path":"/b","box":[[1,3],[1,3]],"cells":[1,2,3,4]}
> {"op":"write_box","path":"/c","box":[[1,3],[1,3]],"cells":[1,2,3,4]}
< {"applied":0,"refused":"Damage"}
> {"op":"write_box","path":"/a","box":[[0,2],[0,2]],"cells":[5,6,7,8]}
> {"op":"write_box","path":"/b","box":[[0,2],[0,2]],"cells":[5,6,7,8]}
> {"op":"write_box","path":"/c","box":[[0,2],[0,2]],"cells":[5,6,7,8]}
< {"done":true}
> {"op":"read_box","path":"/a","box":[[0,2],[0,2]]}
> {"op":"read_box","path":"/b","box":[[0,2],[0,2]]}
> {"op":"read_box","path":"/c","box":[[0,2],[0,2]]}
< {"cells":[5,6,7,8]}

after:
  a/c/0/0 = 05 06 07 08
  a/zarr.json = $stored
  b/c/0/0 = 05 06 07 08
  b/zarr.json = $stored
  c/c/0/0 = 05 06 07 08
  c/zarr.json = $stored
