A create that was refused for its document takes neither its path nor one above or below it.

> {"op":"create","path":"/a/b","document":null}
< {"applied":0,"refused":"Document"}
> {"op":"create","path":"/a","document":$zeros}
< {"done":true}
> {"op":"create","path":"/d/b","document":null}
< {"applied":0,"refused":"Document"}
> {"op":"create","path":"/d/b","document":$zeros}
< {"done":true}
> {"op":"create","path":"/e/b","document":null}
< {"applied":0,"refused":"Document"}
> {"op":"create","path":"/e/b/c","document":$zeros}
< {"done":true}

after:
  a/zarr.json = $stored
  d/b/zarr.json = $stored
  e/b/c/zarr.json = $stored

# The root, in a session that holds no array yet.
> {"op":"create","path":"/a/b","document":null}
< {"applied":0,"refused":"Document"}
> {"op":"create","path":"/","document":$zeros}
< {"done":true}

after:
  a/zarr.json = $stored
  d/b/zarr.json = $stored
  e/b/c/zarr.json = $stored
  zarr.json = $stored
