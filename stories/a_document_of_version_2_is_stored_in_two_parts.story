A created array's document of version 2 is stored as .zattrs, which has an attribute of zarrs, and as .zarray, which has all else. In the order F its cells are stored by columns.

> {"op":"create","path":"/v","document":{"zarr_format":2,"shape":[2,2],"chunks":[2,2],"dtype":"<i2","compressor":null,"fill_value":0,"order":"F","filters":null}}
> {"op":"write_box","path":"/v","box":[[0,2],[0,2]],"cells":[1,2,3,4]}
< {"done":true}
> {"op":"read_box","path":"/v","box":[[0,2],[0,2]]}
< {"cells":[1,2,3,4]}
> {"op":"read_box","path":"/v","box":[[1,2],[0,2]]}
< {"cells":[3,4]}

after:
  v/.zarray =
  | {
  |   "chunks": [
  |     2,
  |     2
  |   ],
  |   "compressor": null,
  |   "dimension_separator": ".",
  |   "dtype": "<i2",
  |   "fill_value": 0,
  |   "filters": null,
  |   "order": "F",
  |   "shape": [
  |     2,
  |     2
  |   ],
  |   "zarr_format": 2
  | }
  v/.zattrs =
  | {
  |   "_zarrs": {
  |     "description": "This array was created with zarrs",
  |     "repository": "https://github.com/zarrs/zarrs",
  |     "version": "0.23.13"
  |   }
  | }
  v/0.0 = 01 00 03 00 02 00 04 00

> {"op":"reopen","path":"/v"}
< {"done":true}
> {"op":"read_chunk","path":"/v","chunk":[0,0]}
< {"cells":[1,2,3,4]}

after: as before
