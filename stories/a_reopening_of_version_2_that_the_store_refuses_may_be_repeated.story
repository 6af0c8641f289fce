Where the store refuses a call of a reopening of an array of version 2, the array isn't held, and the same command is done afterwards.

before:
  a/.zarray = $zarray
  a/.zattrs = $zattrs
  a/0.0 = 01 02 03 04
  refuse read 1

> {"op":"reopen","path":"/a"}
< {"applied":0,"refused":"Store"}
> {"op":"read_chunk","path":"/a","chunk":[0,0]}
< {"applied":0,"refused":"NoArray"}
> {"op":"reopen","path":"/a"}
< {"done":true}

after: as before

before:
  refuse read 2

> {"op":"reopen","path":"/a"}
< {"applied":0,"refused":"Store"}
> {"op":"reopen","path":"/a"}
< {"done":true}

after: as before

before:
  refuse read 3

> {"op":"reopen","path":"/a"}
< {"applied":0,"refused":"Store"}
> {"op":"reopen","path":"/a"}
< {"done":true}
> {"op":"read_chunk","path":"/a","chunk":[0,0]}
< {"cells":[1,2,3,4]}

after: as before

# Of a held array its two keys are read, after the three reads of its opening.
before:
  refuse read 5

> {"op":"reopen","path":"/a"}
< {"done":true}
> {"op":"reopen","path":"/a"}
< {"applied":0,"refused":"Store"}
> {"op":"reopen","path":"/a"}
< {"done":true}

after: as before
