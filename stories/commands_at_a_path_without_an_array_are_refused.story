Where no array is held, a read or a write is refused before its box and its cells are looked at.

> {"op":"read_box","path":"/a","box":[[0,1],[0,1]]}
< {"applied":0,"refused":"NoArray"}
> {"op":"create","path":"/a","document":$zeros}
< {"done":true}
> {"op":"read_box","path":"/b","box":[[0,9],[0,1]]}
> {"op":"write_box","path":"/b","box":[[0,1],[0,1]],"cells":[256]}
< {"applied":0,"refused":"NoArray"}

after:
  a/zarr.json = $stored
