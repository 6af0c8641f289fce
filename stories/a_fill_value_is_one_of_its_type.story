A fill value has the form of its data type: a text for a string, a list of bytes or base64 for bytes, null or a list of one value for an optional type. A data type has just the configuration of its name.

> {"op":"create","path":"/a","document":$zeros{"data_type":"string"}}
> {"op":"create","path":"/a","document":$zeros{"data_type":"bytes","fill_value":"AQI"}}
> {"op":"create","path":"/a","document":$zeros{"data_type":"bytes","fill_value":[256]}}
> {"op":"create","path":"/a","document":$zeros{"data_type":{"name":"optional","configuration":{"name":"uint8"}}}}
> {"op":"create","path":"/a","document":$zeros{"data_type":{"name":"optional","configuration":{"name":"uint8"}},"fill_value":[1,2]}}
> {"op":"create","path":"/a","document":$zeros{"data_type":{"name":"optional"},"fill_value":null}}
> {"op":"create","path":"/a","document":$zeros{"data_type":{"name":"string","configuration":{"name":"uint8"}},"fill_value":""}}
< {"applied":0,"refused":"Document"}

after: as before
