A box past the chunks, or of other dimensions, is refused before its cells are looked at.

> {"op":"create","path":"/a","document":$zeros}
< {"done":true}
> {"op":"write_box","path":"/a","box":[[3,5],[0,1]],"cells":[1,2,3]}
> {"op":"write_box","path":"/a","box":[[3,5],[0,1]],"cells":[256,1]}
> {"op":"write_box","path":"/a","box":[[0,1]],"cells":[1,2]}
< {"applied":0,"refused":"Region"}
> {"op":"read_box","path":"a","box":[[0,1],[0,1]]}
< {"applied":0,"refused":"Path"}

after:
  a/zarr.json = $stored
