Paths that sort between a path and those below it, as /a! does, make no difference to what is taken.

> {"op":"create","path":"/a!","document":$zeros}
> {"op":"create","path":"/a-b","document":$zeros}
> {"op":"create","path":"/a.b/c","document":$zeros}
> {"op":"create","path":"/a/b","document":$zeros}
> {"op":"create","path":"/a0","document":$zeros}
> {"op":"create","path":"/b/c/d","document":$zeros}
< {"done":true}
> {"op":"create","path":"/a","document":$zeros}
> {"op":"create","path":"/a.b","document":$zeros}
> {"op":"create","path":"/b","document":$zeros}
> {"op":"create","path":"/b/c","document":$zeros}
> {"op":"create","path":"/a/b/c-d","document":$zeros}
> {"op":"create","path":"/a!/b","document":$zeros}
> {"op":"create","path":"/","document":$zeros}
< {"applied":0,"refused":"PathTaken"}
> {"op":"create","path":"/a/b-c","document":$zeros}
> {"op":"create","path":"/a/a","document":$zeros}
> {"op":"create","path":"/b/c-d","document":$zeros}
> {"op":"create","path":"/b/c!","document":$zeros}
> {"op":"create","path":"/a-","document":$zeros}
> {"op":"create","path":"/a.b/b","document":$zeros}
> {"op":"create","path":"/A","document":$zeros}
< {"done":true}

after:
  A/zarr.json = $stored
  a!/zarr.json = $stored
  a-/zarr.json = $stored
  a-b/zarr.json = $stored
  a.b/b/zarr.json = $stored
  a.b/c/zarr.json = $stored
  a/a/zarr.json = $stored
  a/b-c/zarr.json = $stored
  a/b/zarr.json = $stored
  a0/zarr.json = $stored
  b/c!/zarr.json = $stored
  b/c-d/zarr.json = $stored
  b/c/d/zarr.json = $stored
