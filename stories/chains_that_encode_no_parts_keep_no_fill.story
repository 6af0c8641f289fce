The option for partial encoding keeps chunks of fill where the codecs are transposes and bytes, and not where bits are packed or a codec works on bytes.

> {"op":"create","path":"/a","document":$zeros{"codecs":[{"name":"transpose","configuration":{"order":[1,0]}},"bytes"]}}
> {"op":"create","path":"/b","document":$zeros{"codecs":["packbits"]}}
> {"op":"create","path":"/c","document":$zeros{"codecs":["bytes","x-reverse"]}}
> {"op":"write_box","path":"/a","box":[[0,1],[0,1]],"cells":[0],"options":{"partial":true}}
> {"op":"write_box","path":"/b","box":[[0,1],[0,1]],"cells":[0],"options":{"partial":true}}
> {"op":"write_box","path":"/c","box":[[0,1],[0,1]],"cells":[0],"options":{"partial":true}}
< {"done":true}

after:
  a/c/0/0 = 00 00 00 00
  a/zarr.json = $stored{"codecs":[{"name":"transpose","configuration":{"order":[1,0]}},"bytes"]}
  b/zarr.json = $stored{"codecs":["packbits"]}
  c/zarr.json = $stored{"codecs":["bytes","x-reverse"]}
