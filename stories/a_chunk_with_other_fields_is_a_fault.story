A write, a read or an erasure of chunks without one of its fields, with another one, or with a value of another kind is a fault.

# Writes.
> {"op":"write_chunk","chunk":[],"cells":[1]}
> {"op":"write_chunk","path":"/a","cells":[1]}
> {"op":"write_chunk","path":"/a","chunk":[]}
> {"op":"write_chunk","path":0,"chunk":[],"cells":[1]}
> {"op":"write_chunk","path":"/a","chunk":null,"cells":[1]}
> {"op":"write_chunk","path":"/a","chunk":0,"cells":[1]}
> {"op":"write_chunk","path":"/a","chunk":{},"cells":[1]}
> {"op":"write_chunk","path":"/a","chunk":[-1],"cells":[1]}
> {"op":"write_chunk","path":"/a","chunk":[1.0],"cells":[1]}
> {"op":"write_chunk","path":"/a","chunk":[[0,1]],"cells":[1]}
> {"op":"write_chunk","path":"/a","chunk":[0,18446744073709551616],"cells":[1]}
> {"op":"write_chunk","path":"/a","chunk":[],"cells":[1],"options":null}
> {"op":"write_chunk","path":"/a","chunk":[],"cells":[1],"options":true}
> {"op":"write_chunk","path":"/a","chunk":[],"cells":[1],"options":{"empty":1}}
> {"op":"write_chunk","path":"/a","chunk":[],"cells":[1],"box":[]}
> {"op":"write_chunk","path":"/a","box":[],"cells":[1]}
> {"op":"write_chunk","path":"/a","chunk":[],"cells":[1],"order":"C"}
< {"fault":"line"}

# Reads.
> {"op":"read_chunk","chunk":[]}
> {"op":"read_chunk","path":"/a"}
> {"op":"read_chunk","path":null,"chunk":[]}
> {"op":"read_chunk","path":"/a","chunk":null}
> {"op":"read_chunk","path":"/a","chunk":"0"}
> {"op":"read_chunk","path":"/a","chunk":[0,null]}
> {"op":"read_chunk","path":"/a","chunk":["0"]}
> {"op":"read_chunk","path":"/a","chunk":[-1]}
> {"op":"read_chunk","path":"/a","chunk":[0.5]}
> {"op":"read_chunk","path":"/a","chunk":[18446744073709551616]}
> {"op":"read_chunk","path":"/a","chunk":[],"options":null}
> {"op":"read_chunk","path":"/a","chunk":[],"options":{"workers":null}}
> {"op":"read_chunk","path":"/a","chunk":[],"cells":[1]}
> {"op":"read_chunk","path":"/a","chunk":[],"box":[]}
> {"op":"read_chunk","path":"/a","box":[]}
< {"fault":"line"}

# Erasures.
> {"op":"erase_chunks","box":[]}
> {"op":"erase_chunks","path":"/a"}
> {"op":"erase_chunks","path":1,"box":[]}
> {"op":"erase_chunks","path":"/a","box":null}
> {"op":"erase_chunks","path":"/a","box":{}}
> {"op":"erase_chunks","path":"/a","box":[0]}
> {"op":"erase_chunks","path":"/a","box":[[0]]}
> {"op":"erase_chunks","path":"/a","box":[[0,1,2]]}
> {"op":"erase_chunks","path":"/a","box":[[-1,0]]}
> {"op":"erase_chunks","path":"/a","box":[[0,1.0]]}
> {"op":"erase_chunks","path":"/a","box":[[0,18446744073709551616]]}
> {"op":"erase_chunks","path":"/a","box":[],"options":{}}
> {"op":"erase_chunks","path":"/a","box":[],"cells":[]}
> {"op":"erase_chunks","path":"/a","box":[],"chunk":[]}
> {"op":"erase_chunks","path":"/a","chunk":[0]}
> {"op":"erase_chunks","path":"/a","box":[],"order":"C"}
< {"fault":"line"}

after:
