A document that other programs open has an object for each codec and for its keys, and keeps these as they were given.

> {"op":"create","path":"/a","document":{"zarr_format":3,"node_type":"array","shape":[4,4],"data_type":"int16","chunk_grid":{"name":"regular","configuration":{"chunk_shape":[2,2]}},"chunk_key_encoding":{"name":"default","configuration":{"separator":"/"}},"fill_value":0,"codecs":[{"name":"bytes","configuration":{"endian":"little"}}]}}
> {"op":"write_box","path":"/a","box":[[1,3],[1,3]],"cells":[1,2,3,4]}
# Cells of one byte have no order: the configuration is an object without fields.
> {"op":"create","path":"/b","document":{"zarr_format":3,"node_type":"array","shape":[2],"data_type":"uint8","chunk_grid":{"name":"regular","configuration":{"chunk_shape":[2]}},"chunk_key_encoding":{"name":"default","configuration":{"separator":"/"}},"fill_value":0,"codecs":[{"name":"bytes","configuration":{}}]}}
> {"op":"write_box","path":"/b","box":[[0,2]],"cells":[5,6]}
< {"done":true}

after:
  a/c/0/0 = 00 00 00 00 00 00 01 00
  a/c/0/1 = 00 00 00 00 02 00 00 00
  a/c/1/0 = 00 00 03 00 00 00 00 00
  a/c/1/1 = 04 00 00 00 00 00 00 00
  a/zarr.json =
  | {
  |   "attributes": {
  |     "_zarrs": {
  |       "description": "This array was created with zarrs",
  |       "repository": "https://github.com/zarrs/zarrs",
  |       "version": "0.23.13"
  |     }
  |   },
  |   "chunk_grid": {
  |     "configuration": {
  |       "chunk_shape": [
  |         2,
  |         2
  |       ]
  |     },
  |     "name": "regular"
  |   },
  |   "chunk_key_encoding": {
  |     "configuration": {
  |       "separator": "/"
  |     },
  |     "name": "default"
  |   },
  |   "codecs": [
  |     {
  |       "configuration": {
  |         "endian": "little"
  |       },
  |       "name": "bytes"
  |     }
  |   ],
  |   "data_type": "int16",
  |   "fill_value": 0,
  |   "node_type": "array",
  |   "shape": [
  |     4,
  |     4
  |   ],
  |   "zarr_format": 3
  | }
  b/c/0 = 05 06
  b/zarr.json =
  | {
  |   "attributes": {
  |     "_zarrs": {
  |       "description": "This array was created with zarrs",
  |       "repository": "https://github.com/zarrs/zarrs",
  |       "version": "0.23.13"
  |     }
  |   },
  |   "chunk_grid": {
  |     "configuration": {
  |       "chunk_shape": [
  |         2
  |       ]
  |     },
  |     "name": "regular"
  |   },
  |   "chunk_key_encoding": {
  |     "configuration": {
  |       "separator": "/"
  |     },
  |     "name": "default"
  |   },
  |   "codecs": [
  |     {
  |       "configuration": {},
  |       "name": "bytes"
  |     }
  |   ],
  |   "data_type": "uint8",
  |   "fill_value": 0,
  |   "node_type": "array",
  |   "shape": [
  |     2
  |   ],
  |   "zarr_format": 3
  | }

> {"op":"reopen","path":"/a"}
> {"op":"reopen","path":"/b"}
< {"done":true}
> {"op":"read_box","path":"/a","box":[[0,4],[1,3]]}
< {"cells":[0,0,1,2,3,4,0,0]}
> {"op":"write_box","path":"/a","box":[[3,5],[0,1]],"cells":[1,2]}
< {"applied":0,"refused":"Region"}
> {"op":"read_box","path":"/b","box":[[0,2]]}
< {"cells":[5,6]}

after: as before
