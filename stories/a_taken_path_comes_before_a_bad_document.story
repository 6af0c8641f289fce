A create at a taken path is refused for the path, whatever its document, and elsewhere for the document.

> {"op":"create","path":"/a","document":$zeros}
< {"done":true}
> {"op":"create","path":"/a","document":null}
> {"op":"create","path":"/a/b","document":null}
> {"op":"create","path":"/","document":null}
< {"applied":0,"refused":"PathTaken"}
> {"op":"create","path":"/b","document":null}
< {"applied":0,"refused":"Document"}

after:
  a/zarr.json = $stored
