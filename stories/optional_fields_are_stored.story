Attributes, dimension names and additional fields are stored, and so are the forms of the required fields that say more.

> {"op":"create","path":"/a","document":$zeros{"note":{"must_understand":false,"k":[7]},"attributes":{"b":[1,{"c":null}],"a":"x"},"dimension_names":["y",null],"storage_transformers":[]}}
> {"op":"create","path":"/b","document":$zeros{"chunk_key_encoding":{"name":"default","configuration":{"separator":"."}}}}
> {"op":"create","path":"/c","document":{"zarr_format":3,"node_type":"array","shape":[4],"fill_value":0,"data_type":{"name":"uint8","must_understand":true},"chunk_grid":{"name":"regular","configuration":{"chunk_shape":[2]}},"chunk_key_encoding":{"name":"default","configuration":{}},"codecs":[{"name":"bytes","configuration":{"endian":"little"}}],"attributes":{"b":1,"_zarrs":null,"Z":[2]},"storage_transformers":[],"dimension_names":["y"],"more":{"name":"x","must_understand":false}}}
< {"done":true}

after:
  a/zarr.json = {"attributes":{"_zarrs":{"description":"This array was created with zarrs","repository":"https://github.com/zarrs/zarrs","version":"0.23.13"},"a":"x","b":[1,{"c":null}]},"chunk_grid":{"configuration":{"chunk_shape":[2,2]},"name":"regular"},"chunk_key_encoding":"default","codecs":["bytes"],"data_type":"uint8","dimension_names":["y",null],"fill_value":0,"node_type":"array","note":{"k":[7],"must_understand":false},"shape":[4,4],"zarr_format":3}
  b/zarr.json = $stored{"chunk_key_encoding":{"configuration":{"separator":"."},"name":"default"}}
  c/zarr.json = {"attributes":{"Z":[2],"_zarrs":{"description":"This array was created with zarrs","repository":"https://github.com/zarrs/zarrs","version":"0.23.13"},"b":1},"chunk_grid":{"configuration":{"chunk_shape":[2]},"name":"regular"},"chunk_key_encoding":{"configuration":{},"name":"default"},"codecs":[{"configuration":{"endian":"little"},"name":"bytes"}],"data_type":"uint8","dimension_names":["y"],"fill_value":0,"more":{"must_understand":false,"name":"x"},"node_type":"array","shape":[4],"zarr_format":3}
