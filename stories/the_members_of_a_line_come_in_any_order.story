The members of a line come in any order. Its cells are values of the data type wherever they stand.

> {"op":"create","path":"/a","document":$zeros}
> {"cells":[1,2,3,4],"op":"write_box","path":"/a","box":[[1,3],[1,3]]}
< {"done":true}
> {"box":[[0,4],[1,3]],"path":"/a","op":"read_box"}
< {"cells":[0,0,1,2,3,4,0,0]}
> {"op":"write_box","box":[[1,3],[1,3]],"cells":[5,6,7,8],"path":"/a"}
< {"done":true}
> {"op":"write_box","path":"/a","box":[[1,3],[1,3]],"cells":[256,1,1,1]}
> {"op":"write_box","path":"/a","box":[[1,3],[1,3]],"cells":[-1,1,1,1]}
> {"op":"write_box","path":"/a","box":[[1,3],[1,3]],"cells":[1.0,1,1,1]}
> {"cells":[256,1,1,1],"op":"write_box","path":"/a","box":[[1,3],[1,3]]}
< {"applied":0,"refused":"Data"}
> {"op":"read_box","path":"/a","box":[[0,4],[1,3]]}
< {"cells":[0,0,5,6,7,8,0,0]}

after:
  a/zarr.json = $stored
  a/c/0/0 = 00 00 00 05
  a/c/0/1 = 00 00 06 00
  a/c/1/0 = 00 07 00 00
  a/c/1/1 = 08 00 00 00
