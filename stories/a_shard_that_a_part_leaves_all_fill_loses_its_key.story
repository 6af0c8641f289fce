With the option for partial encoding, a shard that becomes all fill loses its key, even where empty chunks are stored; and a part that is all fill makes no key.

> {"op":"create","path":"/a","document":$shard{"shape":[8],"fill_value":7},"order":"C"}
> {"op":"write_box","path":"/a","box":[[3,6]],"cells":[1,2,3],"options":{"partial":true}}
< {"done":true}

after:
  a/c/0 = 0701 ffffffffffffffff ffffffffffffffff 0000000000000000 0200000000000000
  a/c/1 = 0203 0000000000000000 0200000000000000 ffffffffffffffff ffffffffffffffff
  a/zarr.json = $stored_shard{"shape":[8],"fill_value":7}

# The first shard becomes all fill, and of the second one the cell beside the box stays.
> {"op":"reopen","path":"/a","order":"C"}
> {"op":"write_box","path":"/a","box":[[3,5]],"cells":[7,7],"options":{"partial":true,"empty":true}}
< {"done":true}
> {"op":"read_box","path":"/a","box":[[2,8]]}
< {"cells":[7,7,7,3,7,7]}

after:
  a/c/1 = 0203 0703 0200000000000000 0200000000000000 ffffffffffffffff ffffffffffffffff
  a/zarr.json = $stored_shard{"shape":[8],"fill_value":7}

# A part of fill where there is no key, and a whole chunk of fill, which is no part of one.
> {"op":"reopen","path":"/a","order":"C"}
> {"op":"write_box","path":"/a","box":[[0,2]],"cells":[7,7],"options":{"partial":true,"empty":true}}
> {"op":"write_box","path":"/a","box":[[4,8]],"cells":[7,7,7,7],"options":{"partial":true,"empty":true}}
< {"done":true}
> {"op":"read_box","path":"/a","box":[[0,8]]}
< {"cells":[7,7,7,7,7,7,7,7]}

after:
  a/c/1 = ffffffffffffffff ffffffffffffffff ffffffffffffffff ffffffffffffffff
  a/zarr.json = $stored_shard{"shape":[8],"fill_value":7}

# A part of fill in a shard that is an index alone.
> {"op":"reopen","path":"/a","order":"C"}
> {"op":"write_box","path":"/a","box":[[5,6]],"cells":[7],"options":{"partial":true}}
< {"done":true}

after:
  a/zarr.json = $stored_shard{"shape":[8],"fill_value":7}
