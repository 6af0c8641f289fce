A text that is no path is refused by every operation, and first of all causes.

before:
  a/zarr.json = $zeros

> {"op":"create","path":"","document":$zeros}
> {"op":"create","path":"a","document":$zeros}
> {"op":"create","path":"/a/","document":$zeros}
> {"op":"create","path":"//","document":$zeros}
> {"op":"create","path":"/a//b","document":$zeros}
> {"op":"reopen","path":""}
> {"op":"reopen","path":"a"}
> {"op":"reopen","path":"/a/"}
> {"op":"reopen","path":"//"}
> {"op":"reopen","path":"/a//b"}
> {"op":"write_box","path":"","box":[[0,1],[0,1]],"cells":[1]}
> {"op":"write_box","path":"a","box":[[0,1],[0,1]],"cells":[1]}
> {"op":"write_box","path":"/a/","box":[[0,1],[0,1]],"cells":[1]}
> {"op":"write_box","path":"//","box":[[0,1],[0,1]],"cells":[1]}
> {"op":"write_box","path":"/a//b","box":[[0,1],[0,1]],"cells":[1]}
> {"op":"read_box","path":"","box":[[0,1],[0,1]]}
> {"op":"read_box","path":"a","box":[[0,1],[0,1]]}
> {"op":"read_box","path":"/a/","box":[[0,1],[0,1]]}
> {"op":"read_box","path":"//","box":[[0,1],[0,1]]}
> {"op":"read_box","path":"/a//b","box":[[0,1],[0,1]]}
# Before the document, the box and the cells.
> {"op":"create","path":"a","document":null}
> {"op":"create","path":"/a/","document":null}
> {"op":"create","path":"b","document":null}
> {"op":"write_box","path":"/a/","box":[[3,5],[0,1]],"cells":7}
< {"applied":0,"refused":"Path"}

after: as before
