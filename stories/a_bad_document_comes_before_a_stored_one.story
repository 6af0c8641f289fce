Where a document is stored already, a create is refused for its own document first, and then for the stored one.

before:
  a/zarr.json = "{}"

> {"op":"create","path":"/a","document":null}
< {"applied":0,"refused":"Document"}
> {"op":"create","path":"/a","document":$zeros}
< {"applied":0,"refused":"PathTaken"}

after: as before
