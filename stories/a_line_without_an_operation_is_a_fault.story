A line that names no operation, or is no JSON object, is a fault, and changes nothing.

>
> null
> []
> {}
> "create"
> [{"op":"read_chunk","path":"/a","chunk":[]}]
> {"path":"/a"}
> {"op":null,"path":"/a"}
> {"op":1,"path":"/a"}
> {"op":"","path":"/a"}
> {"op":"Read_chunk","path":"/a","chunk":[]}
> {"op":"erase","path":"/a","box":[]}
> {"op":"erase_chunk","path":"/a","box":[]}
> {"op":"Reopen","path":"/a"}
> {"op":"open","path":"/a"}
> {"op":"compact","path":"/a"}
> {"op":"rewrite","path":"/a","document":{}}
> {"op":"read_chunk","path":"/a","chunk":[]} 1
> {"op":"read_chunk","path":"/a","chunk":[]
> {"op":"nothing"}
< {"fault":"line"}

after:
