A write or a read of a box without one of its fields, with another one, or with a value of another kind is a fault.

# Writes.
> {"op":"write_box","box":[],"cells":[1]}
> {"op":"write_box","path":"/a","cells":[1]}
> {"op":"write_box","path":"/a","box":[]}
> {"op":"write_box","path":{},"box":[],"cells":[1]}
> {"op":"write_box","path":"/a","box":null,"cells":[1]}
> {"op":"write_box","path":"/a","box":[],"cells":[1],"options":null}
> {"op":"write_box","path":"/a","box":[],"cells":[1],"options":[]}
> {"op":"write_box","path":"/a","box":[],"cells":[1],"chunk":[]}
> {"op":"write_box","path":"/a","chunk":[],"cells":[1]}
> {"op":"write_box","path":"/a","box":[],"cells":[1],"order":"C"}
< {"fault":"line"}

# Reads.
> {"op":"read_box","box":[]}
> {"op":"read_box","path":"/a"}
> {"op":"read_box","path":true,"box":[]}
> {"op":"read_box","path":"/a","box":{}}
> {"op":"read_box","path":"/a","box":[1]}
> {"op":"read_box","path":"/a","box":[[1]]}
> {"op":"read_box","path":"/a","box":[[0,1,2]]}
> {"op":"read_box","path":"/a","box":[[0,1],null]}
> {"op":"read_box","path":"/a","box":[[-1,2]]}
> {"op":"read_box","path":"/a","box":[[0,2.0]]}
> {"op":"read_box","path":"/a","box":[[0,"2"]]}
> {"op":"read_box","path":"/a","box":[[0,18446744073709551616]]}
> {"op":"read_box","path":"/a","box":[],"cells":[1]}
> {"op":"read_box","path":"/a","box":[],"chunk":[]}
> {"op":"read_box","path":"/a","box":[],"options":null}
> {"op":"read_box","path":"/a","box":[],"options":{"empty":null}}
> {"op":"read_box","path":"/a","box":[],"options":{"partial":0}}
> {"op":"read_box","path":"/a","box":[],"options":{"other":true}}
< {"fault":"line"}

after:
