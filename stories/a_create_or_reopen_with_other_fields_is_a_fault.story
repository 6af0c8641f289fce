A create or a reopen without one of its fields, with another one, or with a value of another kind is a fault.

# Creates.
> {"op":"create","document":{}}
> {"op":"create","path":"/a"}
> {"op":"create","path":1,"document":{}}
> {"op":"create","path":null,"document":{}}
> {"op":"create","path":"/a","document":{},"order":null}
> {"op":"create","path":"/a","document":{},"order":1}
> {"op":"create","path":"/a","document":{},"order":"F"}
> {"op":"create","path":"/a","document":{},"order":"c"}
> {"op":"create","path":"/a","document":{},"box":[]}
> {"op":"create","path":"/a","document":{},"options":{}}
> {"op":"create","path":"/a","document":{},"name":"a"}
< {"fault":"line"}

# Reopens.
> {"op":"reopen"}
> {"op":"reopen","order":"C"}
> {"op":"reopen","path":null}
> {"op":"reopen","path":["/a"]}
> {"op":"reopen","path":"/a","order":null}
> {"op":"reopen","path":"/a","order":"F"}
> {"op":"reopen","path":"/a","document":{}}
> {"op":"reopen","path":"/a","options":{}}
> {"op":"reopen","path":"/a","box":[]}
< {"fault":"line"}

after:
