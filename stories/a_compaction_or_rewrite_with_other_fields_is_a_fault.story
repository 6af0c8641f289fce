A compaction or a rewrite without one of its fields, with another one, or with a value of another kind is a fault.

# Compactions.
> {"op":"compact","chunk":[]}
> {"op":"compact","path":"/a"}
> {"op":"compact","path":0,"chunk":[]}
> {"op":"compact","path":"/a","chunk":null}
> {"op":"compact","path":"/a","chunk":0}
> {"op":"compact","path":"/a","chunk":{}}
> {"op":"compact","path":"/a","chunk":[-1]}
> {"op":"compact","path":"/a","chunk":[1.0]}
> {"op":"compact","path":"/a","chunk":["0"]}
> {"op":"compact","path":"/a","chunk":[[0,1]]}
> {"op":"compact","path":"/a","chunk":[18446744073709551616]}
> {"op":"compact","path":"/a","chunk":[],"options":null}
> {"op":"compact","path":"/a","chunk":[],"options":true}
> {"op":"compact","path":"/a","chunk":[],"options":{"empty":1}}
> {"op":"compact","path":"/a","chunk":[],"options":{"order":"C"}}
> {"op":"compact","path":"/a","chunk":[],"cells":[]}
> {"op":"compact","path":"/a","chunk":[],"box":[]}
> {"op":"compact","path":"/a","box":[]}
> {"op":"compact","path":"/a","chunk":[],"order":"C"}
> {"op":"compact_chunk","path":"/a","chunk":[]}
> {"op":"Compact","path":"/a","chunk":[]}
< {"fault":"line"}

# Rewrites.
> {"op":"rewrite"}
> {"op":"rewrite","path":null}
> {"op":"rewrite","path":["/a"]}
> {"op":"rewrite","path":"/a","options":null}
> {"op":"rewrite","path":"/a","options":[]}
> {"op":"rewrite","path":"/a","options":{"partial":null}}
> {"op":"rewrite","path":"/a","chunk":[]}
> {"op":"rewrite","path":"/a","box":[]}
> {"op":"rewrite","path":"/a","cells":[]}
> {"op":"rewrite","path":"/a","order":"C"}
> {"op":"rewrite_array","path":"/a"}
> {"op":"Rewrite","path":"/a"}
< {"fault":"line"}

after:
