Cells of another number, or that are no bytes, are refused, and nothing is written.

> {"op":"create","path":"/a","document":$zeros}
< {"done":true}
> {"op":"write_box","path":"/a","box":[[1,3],[1,2]],"cells":[1]}
> {"op":"write_box","path":"/a","box":[[1,3],[1,2]],"cells":[1,2,3]}
> {"op":"write_box","path":"/a","box":[[1,3],[1,2]],"cells":[]}
> {"op":"write_box","path":"/a","box":[[1,3],[1,2]],"cells":[1,256]}
> {"op":"write_box","path":"/a","box":[[1,3],[1,2]],"cells":[-1,2]}
> {"op":"write_box","path":"/a","box":[[1,3],[1,2]],"cells":[1,"2"]}
> {"op":"write_box","path":"/a","box":[[1,3],[1,2]],"cells":7}
> {"op":"write_box","path":"/a","box":[[1,3],[1,2]],"cells":{}}
> {"op":"write_box","path":"/a","box":[[1,3],[1,2]],"cells":null}
> {"op":"write_box","path":"/a","box":[[1,3],[1,2]],"cells":"12"}
> {"op":"write_box","path":"/a","box":[[2,2],[0,4]],"cells":[1]}
> {"op":"write_chunk","path":"/a","chunk":[0,0],"cells":null}
< {"applied":0,"refused":"Data"}
> {"op":"read_box","path":"/a","box":[[1,3],[1,2]]}
< {"cells":[0,0]}

after:
  a/zarr.json = $stored
