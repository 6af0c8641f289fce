A path that lies above or below an array's is taken, and any other one is free until an array is created there.

> {"op":"create","path":"/a/b/c","document":$zeros}
< {"done":true}
> {"op":"create","path":"/a","document":$zeros}
> {"op":"create","path":"/a/b","document":$zeros}
> {"op":"create","path":"/a/b/c","document":$zeros}
> {"op":"create","path":"/a/b/c/d","document":$zeros}
> {"op":"create","path":"/a/b/c/d/e","document":$zeros}
> {"op":"create","path":"/","document":$zeros}
< {"applied":0,"refused":"PathTaken"}
> {"op":"read_box","path":"/a/b/c","box":[[1,3],[1,3]]}
< {"cells":[0,0,0,0]}
> {"op":"read_box","path":"/a","box":[[1,3],[1,3]]}
> {"op":"read_box","path":"/a/b","box":[[1,3],[1,3]]}
> {"op":"read_box","path":"/a/b/c/d","box":[[1,3],[1,3]]}
> {"op":"read_box","path":"/a/b/c/d/e","box":[[1,3],[1,3]]}
> {"op":"read_box","path":"/","box":[[1,3],[1,3]]}
< {"applied":0,"refused":"NoArray"}
> {"op":"create","path":"/a/bc","document":$zeros}
> {"op":"create","path":"/b","document":$zeros}
> {"op":"create","path":"/a/b/cd","document":$zeros}
> {"op":"create","path":"/a/b/C","document":$zeros}
> {"op":"create","path":"/a/b/c ","document":$zeros}
< {"done":true}
> {"op":"create","path":"/a/bc","document":$zeros}
> {"op":"create","path":"/b","document":$zeros}
> {"op":"create","path":"/a/b/cd","document":$zeros}
> {"op":"create","path":"/a/b/C","document":$zeros}
> {"op":"create","path":"/a/b/c ","document":$zeros}
< {"applied":0,"refused":"PathTaken"}

after:
  a/b/C/zarr.json = $stored
  a/b/c /zarr.json = $stored
  a/b/c/zarr.json = $stored
  a/b/cd/zarr.json = $stored
  a/bc/zarr.json = $stored
  b/zarr.json = $stored
