A created array's document is stored as zarr.json, with an attribute of zarrs, and a reopening leaves it as it is.

> {"op":"create","path":"/a","document":$zeros}
# Empty optional fields are not stored.
> {"op":"create","path":"/b","document":$zeros{"dimension_names":null,"storage_transformers":[],"attributes":{}}}
< {"done":true}

after:
  a/zarr.json =
  | {
  |   "attributes": {
  |     "_zarrs": {
  |       "description": "This array was created with zarrs",
  |       "repository": "https://github.com/zarrs/zarrs",
  |       "version": "0.23.13"
  |     }
  |   },
  |   "chunk_grid": {
  |     "configuration": {
  |       "chunk_shape": [
  |         2,
  |         2
  |       ]
  |     },
  |     "name": "regular"
  |   },
  |   "chunk_key_encoding": "default",
  |   "codecs": [
  |     "bytes"
  |   ],
  |   "data_type": "uint8",
  |   "fill_value": 0,
  |   "node_type": "array",
  |   "shape": [
  |     4,
  |     4
  |   ],
  |   "zarr_format": 3
  | }
  b/zarr.json = $stored

> {"op":"reopen","path":"/a"}
> {"op":"reopen","path":"/b"}
< {"done":true}

after: as before
