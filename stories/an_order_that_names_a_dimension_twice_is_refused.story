An order of dimensions names each of them once. Whether they are as many as the array's is seen at its chunks.

> {"op":"create","path":"/t","document":$zeros{"codecs":[{"name":"transpose","configuration":{"order":[0,0]}},"bytes"]}}
> {"op":"create","path":"/t","document":$zeros{"codecs":[{"name":"transpose","configuration":{"order":[0,2]}},"bytes"]}}
> {"op":"create","path":"/t","document":$zeros{"codecs":[{"name":"transpose","configuration":{}},"bytes"]}}
> {"op":"create","path":"/t","document":$zeros{"codecs":["bytes",{"name":"transpose","configuration":{"order":[1,0]}}]}}
> {"op":"create","path":"/t","document":$zeros{"codecs":[{"name":"transpose","configuration":{"order":[1,0]}}]}}
< {"applied":0,"refused":"Document"}
> {"op":"create","path":"/t","document":$zeros{"codecs":[{"name":"transpose","configuration":{"order":[0]}},"bytes"]}}
< {"done":true}
> {"op":"write_box","path":"/t","box":[[0,1],[0,1]],"cells":[1]}
< {"applied":0,"refused":"Fit"}

after:
  t/zarr.json = $stored{"codecs":[{"name":"transpose","configuration":{"order":[0]}},"bytes"]}
