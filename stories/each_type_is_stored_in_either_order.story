Each type of a fixed size is stored in either byte order, with its bytes reversed never, once or twice, and read back.

# bool
> {"op":"create","path":"/bool-little-0","document":$pair{"data_type":"bool","fill_value":false,"codecs":[{"name":"bytes","configuration":{"endian":"little"}}]}}
> {"op":"write_chunk","path":"/bool-little-0","chunk":[0],"cells":[false,true]}
> {"op":"create","path":"/bool-little-1","document":$pair{"data_type":"bool","fill_value":false,"codecs":[{"name":"bytes","configuration":{"endian":"little"}},"x-reverse"]}}
> {"op":"write_chunk","path":"/bool-little-1","chunk":[0],"cells":[false,true]}
> {"op":"create","path":"/bool-little-2","document":$pair{"data_type":"bool","fill_value":false,"codecs":[{"name":"bytes","configuration":{"endian":"little"}},"x-reverse","x-reverse"]}}
> {"op":"write_chunk","path":"/bool-little-2","chunk":[0],"cells":[false,true]}
> {"op":"create","path":"/bool-big-0","document":$pair{"data_type":"bool","fill_value":false,"codecs":[{"name":"bytes","configuration":{"endian":"big"}}]}}
> {"op":"write_chunk","path":"/bool-big-0","chunk":[0],"cells":[false,true]}
> {"op":"create","path":"/bool-big-1","document":$pair{"data_type":"bool","fill_value":false,"codecs":[{"name":"bytes","configuration":{"endian":"big"}},"x-reverse"]}}
> {"op":"write_chunk","path":"/bool-big-1","chunk":[0],"cells":[false,true]}
> {"op":"create","path":"/bool-big-2","document":$pair{"data_type":"bool","fill_value":false,"codecs":[{"name":"bytes","configuration":{"endian":"big"}},"x-reverse","x-reverse"]}}
> {"op":"write_chunk","path":"/bool-big-2","chunk":[0],"cells":[false,true]}
< {"done":true}
> {"op":"read_chunk","path":"/bool-little-0","chunk":[0]}
> {"op":"read_chunk","path":"/bool-little-1","chunk":[0]}
> {"op":"read_chunk","path":"/bool-little-2","chunk":[0]}
> {"op":"read_chunk","path":"/bool-big-0","chunk":[0]}
> {"op":"read_chunk","path":"/bool-big-1","chunk":[0]}
> {"op":"read_chunk","path":"/bool-big-2","chunk":[0]}
< {"cells":[false,true]}
# int2
> {"op":"create","path":"/int2-little-0","document":$pair{"data_type":"int2","codecs":[{"name":"bytes","configuration":{"endian":"little"}}]}}
> {"op":"write_chunk","path":"/int2-little-0","chunk":[0],"cells":[-2,1]}
> {"op":"create","path":"/int2-little-1","document":$pair{"data_type":"int2","codecs":[{"name":"bytes","configuration":{"endian":"little"}},"x-reverse"]}}
> {"op":"write_chunk","path":"/int2-little-1","chunk":[0],"cells":[-2,1]}
> {"op":"create","path":"/int2-little-2","document":$pair{"data_type":"int2","codecs":[{"name":"bytes","configuration":{"endian":"little"}},"x-reverse","x-reverse"]}}
> {"op":"write_chunk","path":"/int2-little-2","chunk":[0],"cells":[-2,1]}
> {"op":"create","path":"/int2-big-0","document":$pair{"data_type":"int2","codecs":[{"name":"bytes","configuration":{"endian":"big"}}]}}
> {"op":"write_chunk","path":"/int2-big-0","chunk":[0],"cells":[-2,1]}
> {"op":"create","path":"/int2-big-1","document":$pair{"data_type":"int2","codecs":[{"name":"bytes","configuration":{"endian":"big"}},"x-reverse"]}}
> {"op":"write_chunk","path":"/int2-big-1","chunk":[0],"cells":[-2,1]}
> {"op":"create","path":"/int2-big-2","document":$pair{"data_type":"int2","codecs":[{"name":"bytes","configuration":{"endian":"big"}},"x-reverse","x-reverse"]}}
> {"op":"write_chunk","path":"/int2-big-2","chunk":[0],"cells":[-2,1]}
< {"done":true}
> {"op":"read_chunk","path":"/int2-little-0","chunk":[0]}
> {"op":"read_chunk","path":"/int2-little-1","chunk":[0]}
> {"op":"read_chunk","path":"/int2-little-2","chunk":[0]}
> {"op":"read_chunk","path":"/int2-big-0","chunk":[0]}
> {"op":"read_chunk","path":"/int2-big-1","chunk":[0]}
> {"op":"read_chunk","path":"/int2-big-2","chunk":[0]}
< {"cells":[-2,1]}
# int4
> {"op":"create","path":"/int4-little-0","document":$pair{"data_type":"int4","codecs":[{"name":"bytes","configuration":{"endian":"little"}}]}}
> {"op":"write_chunk","path":"/int4-little-0","chunk":[0],"cells":[-8,7]}
> {"op":"create","path":"/int4-little-1","document":$pair{"data_type":"int4","codecs":[{"name":"bytes","configuration":{"endian":"little"}},"x-reverse"]}}
> {"op":"write_chunk","path":"/int4-little-1","chunk":[0],"cells":[-8,7]}
> {"op":"create","path":"/int4-little-2","document":$pair{"data_type":"int4","codecs":[{"name":"bytes","configuration":{"endian":"little"}},"x-reverse","x-reverse"]}}
> {"op":"write_chunk","path":"/int4-little-2","chunk":[0],"cells":[-8,7]}
> {"op":"create","path":"/int4-big-0","document":$pair{"data_type":"int4","codecs":[{"name":"bytes","configuration":{"endian":"big"}}]}}
> {"op":"write_chunk","path":"/int4-big-0","chunk":[0],"cells":[-8,7]}
> {"op":"create","path":"/int4-big-1","document":$pair{"data_type":"int4","codecs":[{"name":"bytes","configuration":{"endian":"big"}},"x-reverse"]}}
> {"op":"write_chunk","path":"/int4-big-1","chunk":[0],"cells":[-8,7]}
> {"op":"create","path":"/int4-big-2","document":$pair{"data_type":"int4","codecs":[{"name":"bytes","configuration":{"endian":"big"}},"x-reverse","x-reverse"]}}
> {"op":"write_chunk","path":"/int4-big-2","chunk":[0],"cells":[-8,7]}
< {"done":true}
> {"op":"read_chunk","path":"/int4-little-0","chunk":[0]}
> {"op":"read_chunk","path":"/int4-little-1","chunk":[0]}
> {"op":"read_chunk","path":"/int4-little-2","chunk":[0]}
> {"op":"read_chunk","path":"/int4-big-0","chunk":[0]}
> {"op":"read_chunk","path":"/int4-big-1","chunk":[0]}
> {"op":"read_chunk","path":"/int4-big-2","chunk":[0]}
< {"cells":[-8,7]}
# int8
> {"op":"create","path":"/int8-little-0","document":$pair{"data_type":"int8","codecs":[{"name":"bytes","configuration":{"endian":"little"}}]}}
> {"op":"write_chunk","path":"/int8-little-0","chunk":[0],"cells":[-128,1]}
> {"op":"create","path":"/int8-little-1","document":$pair{"data_type":"int8","codecs":[{"name":"bytes","configuration":{"endian":"little"}},"x-reverse"]}}
> {"op":"write_chunk","path":"/int8-little-1","chunk":[0],"cells":[-128,1]}
> {"op":"create","path":"/int8-little-2","document":$pair{"data_type":"int8","codecs":[{"name":"bytes","configuration":{"endian":"little"}},"x-reverse","x-reverse"]}}
> {"op":"write_chunk","path":"/int8-little-2","chunk":[0],"cells":[-128,1]}
> {"op":"create","path":"/int8-big-0","document":$pair{"data_type":"int8","codecs":[{"name":"bytes","configuration":{"endian":"big"}}]}}
> {"op":"write_chunk","path":"/int8-big-0","chunk":[0],"cells":[-128,1]}
> {"op":"create","path":"/int8-big-1","document":$pair{"data_type":"int8","codecs":[{"name":"bytes","configuration":{"endian":"big"}},"x-reverse"]}}
> {"op":"write_chunk","path":"/int8-big-1","chunk":[0],"cells":[-128,1]}
> {"op":"create","path":"/int8-big-2","document":$pair{"data_type":"int8","codecs":[{"name":"bytes","configuration":{"endian":"big"}},"x-reverse","x-reverse"]}}
> {"op":"write_chunk","path":"/int8-big-2","chunk":[0],"cells":[-128,1]}
< {"done":true}
> {"op":"read_chunk","path":"/int8-little-0","chunk":[0]}
> {"op":"read_chunk","path":"/int8-little-1","chunk":[0]}
> {"op":"read_chunk","path":"/int8-little-2","chunk":[0]}
> {"op":"read_chunk","path":"/int8-big-0","chunk":[0]}
> {"op":"read_chunk","path":"/int8-big-1","chunk":[0]}
> {"op":"read_chunk","path":"/int8-big-2","chunk":[0]}
< {"cells":[-128,1]}
# int16
> {"op":"create","path":"/int16-little-0","document":$pair{"data_type":"int16","codecs":[{"name":"bytes","configuration":{"endian":"little"}}]}}
> {"op":"write_chunk","path":"/int16-little-0","chunk":[0],"cells":[-2,258]}
> {"op":"create","path":"/int16-little-1","document":$pair{"data_type":"int16","codecs":[{"name":"bytes","configuration":{"endian":"little"}},"x-reverse"]}}
> {"op":"write_chunk","path":"/int16-little-1","chunk":[0],"cells":[-2,258]}
> {"op":"create","path":"/int16-little-2","document":$pair{"data_type":"int16","codecs":[{"name":"bytes","configuration":{"endian":"little"}},"x-reverse","x-reverse"]}}
> {"op":"write_chunk","path":"/int16-little-2","chunk":[0],"cells":[-2,258]}
> {"op":"create","path":"/int16-big-0","document":$pair{"data_type":"int16","codecs":[{"name":"bytes","configuration":{"endian":"big"}}]}}
> {"op":"write_chunk","path":"/int16-big-0","chunk":[0],"cells":[-2,258]}
> {"op":"create","path":"/int16-big-1","document":$pair{"data_type":"int16","codecs":[{"name":"bytes","configuration":{"endian":"big"}},"x-reverse"]}}
> {"op":"write_chunk","path":"/int16-big-1","chunk":[0],"cells":[-2,258]}
> {"op":"create","path":"/int16-big-2","document":$pair{"data_type":"int16","codecs":[{"name":"bytes","configuration":{"endian":"big"}},"x-reverse","x-reverse"]}}
> {"op":"write_chunk","path":"/int16-big-2","chunk":[0],"cells":[-2,258]}
< {"done":true}
> {"op":"read_chunk","path":"/int16-little-0","chunk":[0]}
> {"op":"read_chunk","path":"/int16-little-1","chunk":[0]}
> {"op":"read_chunk","path":"/int16-little-2","chunk":[0]}
> {"op":"read_chunk","path":"/int16-big-0","chunk":[0]}
> {"op":"read_chunk","path":"/int16-big-1","chunk":[0]}
> {"op":"read_chunk","path":"/int16-big-2","chunk":[0]}
< {"cells":[-2,258]}
# int32
> {"op":"create","path":"/int32-little-0","document":$pair{"data_type":"int32","codecs":[{"name":"bytes","configuration":{"endian":"little"}}]}}
> {"op":"write_chunk","path":"/int32-little-0","chunk":[0],"cells":[-2,16909060]}
> {"op":"create","path":"/int32-little-1","document":$pair{"data_type":"int32","codecs":[{"name":"bytes","configuration":{"endian":"little"}},"x-reverse"]}}
> {"op":"write_chunk","path":"/int32-little-1","chunk":[0],"cells":[-2,16909060]}
> {"op":"create","path":"/int32-little-2","document":$pair{"data_type":"int32","codecs":[{"name":"bytes","configuration":{"endian":"little"}},"x-reverse","x-reverse"]}}
> {"op":"write_chunk","path":"/int32-little-2","chunk":[0],"cells":[-2,16909060]}
> {"op":"create","path":"/int32-big-0","document":$pair{"data_type":"int32","codecs":[{"name":"bytes","configuration":{"endian":"big"}}]}}
> {"op":"write_chunk","path":"/int32-big-0","chunk":[0],"cells":[-2,16909060]}
> {"op":"create","path":"/int32-big-1","document":$pair{"data_type":"int32","codecs":[{"name":"bytes","configuration":{"endian":"big"}},"x-reverse"]}}
> {"op":"write_chunk","path":"/int32-big-1","chunk":[0],"cells":[-2,16909060]}
> {"op":"create","path":"/int32-big-2","document":$pair{"data_type":"int32","codecs":[{"name":"bytes","configuration":{"endian":"big"}},"x-reverse","x-reverse"]}}
> {"op":"write_chunk","path":"/int32-big-2","chunk":[0],"cells":[-2,16909060]}
< {"done":true}
> {"op":"read_chunk","path":"/int32-little-0","chunk":[0]}
> {"op":"read_chunk","path":"/int32-little-1","chunk":[0]}
> {"op":"read_chunk","path":"/int32-little-2","chunk":[0]}
> {"op":"read_chunk","path":"/int32-big-0","chunk":[0]}
> {"op":"read_chunk","path":"/int32-big-1","chunk":[0]}
> {"op":"read_chunk","path":"/int32-big-2","chunk":[0]}
< {"cells":[-2,16909060]}
# int64
> {"op":"create","path":"/int64-little-0","document":$pair{"data_type":"int64","codecs":[{"name":"bytes","configuration":{"endian":"little"}}]}}
> {"op":"write_chunk","path":"/int64-little-0","chunk":[0],"cells":[-2,72623859790382856]}
> {"op":"create","path":"/int64-little-1","document":$pair{"data_type":"int64","codecs":[{"name":"bytes","configuration":{"endian":"little"}},"x-reverse"]}}
> {"op":"write_chunk","path":"/int64-little-1","chunk":[0],"cells":[-2,72623859790382856]}
> {"op":"create","path":"/int64-little-2","document":$pair{"data_type":"int64","codecs":[{"name":"bytes","configuration":{"endian":"little"}},"x-reverse","x-reverse"]}}
> {"op":"write_chunk","path":"/int64-little-2","chunk":[0],"cells":[-2,72623859790382856]}
> {"op":"create","path":"/int64-big-0","document":$pair{"data_type":"int64","codecs":[{"name":"bytes","configuration":{"endian":"big"}}]}}
> {"op":"write_chunk","path":"/int64-big-0","chunk":[0],"cells":[-2,72623859790382856]}
> {"op":"create","path":"/int64-big-1","document":$pair{"data_type":"int64","codecs":[{"name":"bytes","configuration":{"endian":"big"}},"x-reverse"]}}
> {"op":"write_chunk","path":"/int64-big-1","chunk":[0],"cells":[-2,72623859790382856]}
> {"op":"create","path":"/int64-big-2","document":$pair{"data_type":"int64","codecs":[{"name":"bytes","configuration":{"endian":"big"}},"x-reverse","x-reverse"]}}
> {"op":"write_chunk","path":"/int64-big-2","chunk":[0],"cells":[-2,72623859790382856]}
< {"done":true}
> {"op":"read_chunk","path":"/int64-little-0","chunk":[0]}
> {"op":"read_chunk","path":"/int64-little-1","chunk":[0]}
> {"op":"read_chunk","path":"/int64-little-2","chunk":[0]}
> {"op":"read_chunk","path":"/int64-big-0","chunk":[0]}
> {"op":"read_chunk","path":"/int64-big-1","chunk":[0]}
> {"op":"read_chunk","path":"/int64-big-2","chunk":[0]}
< {"cells":[-2,72623859790382856]}
# uint2
> {"op":"create","path":"/uint2-little-0","document":$pair{"data_type":"uint2","codecs":[{"name":"bytes","configuration":{"endian":"little"}}]}}
> {"op":"write_chunk","path":"/uint2-little-0","chunk":[0],"cells":[1,3]}
> {"op":"create","path":"/uint2-little-1","document":$pair{"data_type":"uint2","codecs":[{"name":"bytes","configuration":{"endian":"little"}},"x-reverse"]}}
> {"op":"write_chunk","path":"/uint2-little-1","chunk":[0],"cells":[1,3]}
> {"op":"create","path":"/uint2-little-2","document":$pair{"data_type":"uint2","codecs":[{"name":"bytes","configuration":{"endian":"little"}},"x-reverse","x-reverse"]}}
> {"op":"write_chunk","path":"/uint2-little-2","chunk":[0],"cells":[1,3]}
> {"op":"create","path":"/uint2-big-0","document":$pair{"data_type":"uint2","codecs":[{"name":"bytes","configuration":{"endian":"big"}}]}}
> {"op":"write_chunk","path":"/uint2-big-0","chunk":[0],"cells":[1,3]}
> {"op":"create","path":"/uint2-big-1","document":$pair{"data_type":"uint2","codecs":[{"name":"bytes","configuration":{"endian":"big"}},"x-reverse"]}}
> {"op":"write_chunk","path":"/uint2-big-1","chunk":[0],"cells":[1,3]}
> {"op":"create","path":"/uint2-big-2","document":$pair{"data_type":"uint2","codecs":[{"name":"bytes","configuration":{"endian":"big"}},"x-reverse","x-reverse"]}}
> {"op":"write_chunk","path":"/uint2-big-2","chunk":[0],"cells":[1,3]}
< {"done":true}
> {"op":"read_chunk","path":"/uint2-little-0","chunk":[0]}
> {"op":"read_chunk","path":"/uint2-little-1","chunk":[0]}
> {"op":"read_chunk","path":"/uint2-little-2","chunk":[0]}
> {"op":"read_chunk","path":"/uint2-big-0","chunk":[0]}
> {"op":"read_chunk","path":"/uint2-big-1","chunk":[0]}
> {"op":"read_chunk","path":"/uint2-big-2","chunk":[0]}
< {"cells":[1,3]}
# uint4
> {"op":"create","path":"/uint4-little-0","document":$pair{"data_type":"uint4","codecs":[{"name":"bytes","configuration":{"endian":"little"}}]}}
> {"op":"write_chunk","path":"/uint4-little-0","chunk":[0],"cells":[1,15]}
> {"op":"create","path":"/uint4-little-1","document":$pair{"data_type":"uint4","codecs":[{"name":"bytes","configuration":{"endian":"little"}},"x-reverse"]}}
> {"op":"write_chunk","path":"/uint4-little-1","chunk":[0],"cells":[1,15]}
> {"op":"create","path":"/uint4-little-2","document":$pair{"data_type":"uint4","codecs":[{"name":"bytes","configuration":{"endian":"little"}},"x-reverse","x-reverse"]}}
> {"op":"write_chunk","path":"/uint4-little-2","chunk":[0],"cells":[1,15]}
> {"op":"create","path":"/uint4-big-0","document":$pair{"data_type":"uint4","codecs":[{"name":"bytes","configuration":{"endian":"big"}}]}}
> {"op":"write_chunk","path":"/uint4-big-0","chunk":[0],"cells":[1,15]}
> {"op":"create","path":"/uint4-big-1","document":$pair{"data_type":"uint4","codecs":[{"name":"bytes","configuration":{"endian":"big"}},"x-reverse"]}}
> {"op":"write_chunk","path":"/uint4-big-1","chunk":[0],"cells":[1,15]}
> {"op":"create","path":"/uint4-big-2","document":$pair{"data_type":"uint4","codecs":[{"name":"bytes","configuration":{"endian":"big"}},"x-reverse","x-reverse"]}}
> {"op":"write_chunk","path":"/uint4-big-2","chunk":[0],"cells":[1,15]}
< {"done":true}
> {"op":"read_chunk","path":"/uint4-little-0","chunk":[0]}
> {"op":"read_chunk","path":"/uint4-little-1","chunk":[0]}
> {"op":"read_chunk","path":"/uint4-little-2","chunk":[0]}
> {"op":"read_chunk","path":"/uint4-big-0","chunk":[0]}
> {"op":"read_chunk","path":"/uint4-big-1","chunk":[0]}
> {"op":"read_chunk","path":"/uint4-big-2","chunk":[0]}
< {"cells":[1,15]}
# uint8
> {"op":"create","path":"/uint8-little-0","document":$pair{"data_type":"uint8","codecs":[{"name":"bytes","configuration":{"endian":"little"}}]}}
> {"op":"write_chunk","path":"/uint8-little-0","chunk":[0],"cells":[1,255]}
> {"op":"create","path":"/uint8-little-1","document":$pair{"data_type":"uint8","codecs":[{"name":"bytes","configuration":{"endian":"little"}},"x-reverse"]}}
> {"op":"write_chunk","path":"/uint8-little-1","chunk":[0],"cells":[1,255]}
> {"op":"create","path":"/uint8-little-2","document":$pair{"data_type":"uint8","codecs":[{"name":"bytes","configuration":{"endian":"little"}},"x-reverse","x-reverse"]}}
> {"op":"write_chunk","path":"/uint8-little-2","chunk":[0],"cells":[1,255]}
> {"op":"create","path":"/uint8-big-0","document":$pair{"data_type":"uint8","codecs":[{"name":"bytes","configuration":{"endian":"big"}}]}}
> {"op":"write_chunk","path":"/uint8-big-0","chunk":[0],"cells":[1,255]}
> {"op":"create","path":"/uint8-big-1","document":$pair{"data_type":"uint8","codecs":[{"name":"bytes","configuration":{"endian":"big"}},"x-reverse"]}}
> {"op":"write_chunk","path":"/uint8-big-1","chunk":[0],"cells":[1,255]}
> {"op":"create","path":"/uint8-big-2","document":$pair{"data_type":"uint8","codecs":[{"name":"bytes","configuration":{"endian":"big"}},"x-reverse","x-reverse"]}}
> {"op":"write_chunk","path":"/uint8-big-2","chunk":[0],"cells":[1,255]}
< {"done":true}
> {"op":"read_chunk","path":"/uint8-little-0","chunk":[0]}
> {"op":"read_chunk","path":"/uint8-little-1","chunk":[0]}
> {"op":"read_chunk","path":"/uint8-little-2","chunk":[0]}
> {"op":"read_chunk","path":"/uint8-big-0","chunk":[0]}
> {"op":"read_chunk","path":"/uint8-big-1","chunk":[0]}
> {"op":"read_chunk","path":"/uint8-big-2","chunk":[0]}
< {"cells":[1,255]}
# uint16
> {"op":"create","path":"/uint16-little-0","document":$pair{"data_type":"uint16","codecs":[{"name":"bytes","configuration":{"endian":"little"}}]}}
> {"op":"write_chunk","path":"/uint16-little-0","chunk":[0],"cells":[1,65280]}
> {"op":"create","path":"/uint16-little-1","document":$pair{"data_type":"uint16","codecs":[{"name":"bytes","configuration":{"endian":"little"}},"x-reverse"]}}
> {"op":"write_chunk","path":"/uint16-little-1","chunk":[0],"cells":[1,65280]}
> {"op":"create","path":"/uint16-little-2","document":$pair{"data_type":"uint16","codecs":[{"name":"bytes","configuration":{"endian":"little"}},"x-reverse","x-reverse"]}}
> {"op":"write_chunk","path":"/uint16-little-2","chunk":[0],"cells":[1,65280]}
> {"op":"create","path":"/uint16-big-0","document":$pair{"data_type":"uint16","codecs":[{"name":"bytes","configuration":{"endian":"big"}}]}}
> {"op":"write_chunk","path":"/uint16-big-0","chunk":[0],"cells":[1,65280]}
> {"op":"create","path":"/uint16-big-1","document":$pair{"data_type":"uint16","codecs":[{"name":"bytes","configuration":{"endian":"big"}},"x-reverse"]}}
> {"op":"write_chunk","path":"/uint16-big-1","chunk":[0],"cells":[1,65280]}
> {"op":"create","path":"/uint16-big-2","document":$pair{"data_type":"uint16","codecs":[{"name":"bytes","configuration":{"endian":"big"}},"x-reverse","x-reverse"]}}
> {"op":"write_chunk","path":"/uint16-big-2","chunk":[0],"cells":[1,65280]}
< {"done":true}
> {"op":"read_chunk","path":"/uint16-little-0","chunk":[0]}
> {"op":"read_chunk","path":"/uint16-little-1","chunk":[0]}
> {"op":"read_chunk","path":"/uint16-little-2","chunk":[0]}
> {"op":"read_chunk","path":"/uint16-big-0","chunk":[0]}
> {"op":"read_chunk","path":"/uint16-big-1","chunk":[0]}
> {"op":"read_chunk","path":"/uint16-big-2","chunk":[0]}
< {"cells":[1,65280]}
# uint32
> {"op":"create","path":"/uint32-little-0","document":$pair{"data_type":"uint32","codecs":[{"name":"bytes","configuration":{"endian":"little"}}]}}
> {"op":"write_chunk","path":"/uint32-little-0","chunk":[0],"cells":[16909060,4294967294]}
> {"op":"create","path":"/uint32-little-1","document":$pair{"data_type":"uint32","codecs":[{"name":"bytes","configuration":{"endian":"little"}},"x-reverse"]}}
> {"op":"write_chunk","path":"/uint32-little-1","chunk":[0],"cells":[16909060,4294967294]}
> {"op":"create","path":"/uint32-little-2","document":$pair{"data_type":"uint32","codecs":[{"name":"bytes","configuration":{"endian":"little"}},"x-reverse","x-reverse"]}}
> {"op":"write_chunk","path":"/uint32-little-2","chunk":[0],"cells":[16909060,4294967294]}
> {"op":"create","path":"/uint32-big-0","document":$pair{"data_type":"uint32","codecs":[{"name":"bytes","configuration":{"endian":"big"}}]}}
> {"op":"write_chunk","path":"/uint32-big-0","chunk":[0],"cells":[16909060,4294967294]}
> {"op":"create","path":"/uint32-big-1","document":$pair{"data_type":"uint32","codecs":[{"name":"bytes","configuration":{"endian":"big"}},"x-reverse"]}}
> {"op":"write_chunk","path":"/uint32-big-1","chunk":[0],"cells":[16909060,4294967294]}
> {"op":"create","path":"/uint32-big-2","document":$pair{"data_type":"uint32","codecs":[{"name":"bytes","configuration":{"endian":"big"}},"x-reverse","x-reverse"]}}
> {"op":"write_chunk","path":"/uint32-big-2","chunk":[0],"cells":[16909060,4294967294]}
< {"done":true}
> {"op":"read_chunk","path":"/uint32-little-0","chunk":[0]}
> {"op":"read_chunk","path":"/uint32-little-1","chunk":[0]}
> {"op":"read_chunk","path":"/uint32-little-2","chunk":[0]}
> {"op":"read_chunk","path":"/uint32-big-0","chunk":[0]}
> {"op":"read_chunk","path":"/uint32-big-1","chunk":[0]}
> {"op":"read_chunk","path":"/uint32-big-2","chunk":[0]}
< {"cells":[16909060,4294967294]}
# uint64
> {"op":"create","path":"/uint64-little-0","document":$pair{"data_type":"uint64","codecs":[{"name":"bytes","configuration":{"endian":"little"}}]}}
> {"op":"write_chunk","path":"/uint64-little-0","chunk":[0],"cells":[72623859790382856,18446744073709551614]}
> {"op":"create","path":"/uint64-little-1","document":$pair{"data_type":"uint64","codecs":[{"name":"bytes","configuration":{"endian":"little"}},"x-reverse"]}}
> {"op":"write_chunk","path":"/uint64-little-1","chunk":[0],"cells":[72623859790382856,18446744073709551614]}
> {"op":"create","path":"/uint64-little-2","document":$pair{"data_type":"uint64","codecs":[{"name":"bytes","configuration":{"endian":"little"}},"x-reverse","x-reverse"]}}
> {"op":"write_chunk","path":"/uint64-little-2","chunk":[0],"cells":[72623859790382856,18446744073709551614]}
> {"op":"create","path":"/uint64-big-0","document":$pair{"data_type":"uint64","codecs":[{"name":"bytes","configuration":{"endian":"big"}}]}}
> {"op":"write_chunk","path":"/uint64-big-0","chunk":[0],"cells":[72623859790382856,18446744073709551614]}
> {"op":"create","path":"/uint64-big-1","document":$pair{"data_type":"uint64","codecs":[{"name":"bytes","configuration":{"endian":"big"}},"x-reverse"]}}
> {"op":"write_chunk","path":"/uint64-big-1","chunk":[0],"cells":[72623859790382856,18446744073709551614]}
> {"op":"create","path":"/uint64-big-2","document":$pair{"data_type":"uint64","codecs":[{"name":"bytes","configuration":{"endian":"big"}},"x-reverse","x-reverse"]}}
> {"op":"write_chunk","path":"/uint64-big-2","chunk":[0],"cells":[72623859790382856,18446744073709551614]}
< {"done":true}
> {"op":"read_chunk","path":"/uint64-little-0","chunk":[0]}
> {"op":"read_chunk","path":"/uint64-little-1","chunk":[0]}
> {"op":"read_chunk","path":"/uint64-little-2","chunk":[0]}
> {"op":"read_chunk","path":"/uint64-big-0","chunk":[0]}
> {"op":"read_chunk","path":"/uint64-big-1","chunk":[0]}
> {"op":"read_chunk","path":"/uint64-big-2","chunk":[0]}
< {"cells":[72623859790382856,18446744073709551614]}

after:
  bool-little-0/c/0 = 00 01
  bool-little-0/zarr.json = $stored_pair{"data_type":"bool","fill_value":false,"codecs":[{"name":"bytes","configuration":{"endian":"little"}}]}
  bool-little-1/c/0 = 01 00
  bool-little-1/zarr.json = $stored_pair{"data_type":"bool","fill_value":false,"codecs":[{"name":"bytes","configuration":{"endian":"little"}},"x-reverse"]}
  bool-little-2/c/0 = 00 01
  bool-little-2/zarr.json = $stored_pair{"data_type":"bool","fill_value":false,"codecs":[{"name":"bytes","configuration":{"endian":"little"}},"x-reverse","x-reverse"]}
  bool-big-0/c/0 = 00 01
  bool-big-0/zarr.json = $stored_pair{"data_type":"bool","fill_value":false,"codecs":[{"name":"bytes","configuration":{"endian":"big"}}]}
  bool-big-1/c/0 = 01 00
  bool-big-1/zarr.json = $stored_pair{"data_type":"bool","fill_value":false,"codecs":[{"name":"bytes","configuration":{"endian":"big"}},"x-reverse"]}
  bool-big-2/c/0 = 00 01
  bool-big-2/zarr.json = $stored_pair{"data_type":"bool","fill_value":false,"codecs":[{"name":"bytes","configuration":{"endian":"big"}},"x-reverse","x-reverse"]}
  int2-little-0/c/0 = fe 01
  int2-little-0/zarr.json = $stored_pair{"data_type":"int2","codecs":[{"name":"bytes","configuration":{"endian":"little"}}]}
  int2-little-1/c/0 = 01 fe
  int2-little-1/zarr.json = $stored_pair{"data_type":"int2","codecs":[{"name":"bytes","configuration":{"endian":"little"}},"x-reverse"]}
  int2-little-2/c/0 = fe 01
  int2-little-2/zarr.json = $stored_pair{"data_type":"int2","codecs":[{"name":"bytes","configuration":{"endian":"little"}},"x-reverse","x-reverse"]}
  int2-big-0/c/0 = fe 01
  int2-big-0/zarr.json = $stored_pair{"data_type":"int2","codecs":[{"name":"bytes","configuration":{"endian":"big"}}]}
  int2-big-1/c/0 = 01 fe
  int2-big-1/zarr.json = $stored_pair{"data_type":"int2","codecs":[{"name":"bytes","configuration":{"endian":"big"}},"x-reverse"]}
  int2-big-2/c/0 = fe 01
  int2-big-2/zarr.json = $stored_pair{"data_type":"int2","codecs":[{"name":"bytes","configuration":{"endian":"big"}},"x-reverse","x-reverse"]}
  int4-little-0/c/0 = f8 07
  int4-little-0/zarr.json = $stored_pair{"data_type":"int4","codecs":[{"name":"bytes","configuration":{"endian":"little"}}]}
  int4-little-1/c/0 = 07 f8
  int4-little-1/zarr.json = $stored_pair{"data_type":"int4","codecs":[{"name":"bytes","configuration":{"endian":"little"}},"x-reverse"]}
  int4-little-2/c/0 = f8 07
  int4-little-2/zarr.json = $stored_pair{"data_type":"int4","codecs":[{"name":"bytes","configuration":{"endian":"little"}},"x-reverse","x-reverse"]}
  int4-big-0/c/0 = f8 07
  int4-big-0/zarr.json = $stored_pair{"data_type":"int4","codecs":[{"name":"bytes","configuration":{"endian":"big"}}]}
  int4-big-1/c/0 = 07 f8
  int4-big-1/zarr.json = $stored_pair{"data_type":"int4","codecs":[{"name":"bytes","configuration":{"endian":"big"}},"x-reverse"]}
  int4-big-2/c/0 = f8 07
  int4-big-2/zarr.json = $stored_pair{"data_type":"int4","codecs":[{"name":"bytes","configuration":{"endian":"big"}},"x-reverse","x-reverse"]}
  int8-little-0/c/0 = 80 01
  int8-little-0/zarr.json = $stored_pair{"data_type":"int8","codecs":[{"name":"bytes","configuration":{"endian":"little"}}]}
  int8-little-1/c/0 = 01 80
  int8-little-1/zarr.json = $stored_pair{"data_type":"int8","codecs":[{"name":"bytes","configuration":{"endian":"little"}},"x-reverse"]}
  int8-little-2/c/0 = 80 01
  int8-little-2/zarr.json = $stored_pair{"data_type":"int8","codecs":[{"name":"bytes","configuration":{"endian":"little"}},"x-reverse","x-reverse"]}
  int8-big-0/c/0 = 80 01
  int8-big-0/zarr.json = $stored_pair{"data_type":"int8","codecs":[{"name":"bytes","configuration":{"endian":"big"}}]}
  int8-big-1/c/0 = 01 80
  int8-big-1/zarr.json = $stored_pair{"data_type":"int8","codecs":[{"name":"bytes","configuration":{"endian":"big"}},"x-reverse"]}
  int8-big-2/c/0 = 80 01
  int8-big-2/zarr.json = $stored_pair{"data_type":"int8","codecs":[{"name":"bytes","configuration":{"endian":"big"}},"x-reverse","x-reverse"]}
  int16-little-0/c/0 = fe ff 02 01
  int16-little-0/zarr.json = $stored_pair{"data_type":"int16","codecs":[{"name":"bytes","configuration":{"endian":"little"}}]}
  int16-little-1/c/0 = 01 02 ff fe
  int16-little-1/zarr.json = $stored_pair{"data_type":"int16","codecs":[{"name":"bytes","configuration":{"endian":"little"}},"x-reverse"]}
  int16-little-2/c/0 = fe ff 02 01
  int16-little-2/zarr.json = $stored_pair{"data_type":"int16","codecs":[{"name":"bytes","configuration":{"endian":"little"}},"x-reverse","x-reverse"]}
  int16-big-0/c/0 = ff fe 01 02
  int16-big-0/zarr.json = $stored_pair{"data_type":"int16","codecs":[{"name":"bytes","configuration":{"endian":"big"}}]}
  int16-big-1/c/0 = 02 01 fe ff
  int16-big-1/zarr.json = $stored_pair{"data_type":"int16","codecs":[{"name":"bytes","configuration":{"endian":"big"}},"x-reverse"]}
  int16-big-2/c/0 = ff fe 01 02
  int16-big-2/zarr.json = $stored_pair{"data_type":"int16","codecs":[{"name":"bytes","configuration":{"endian":"big"}},"x-reverse","x-reverse"]}
  int32-little-0/c/0 = fe ff ff ff 04 03 02 01
  int32-little-0/zarr.json = $stored_pair{"data_type":"int32","codecs":[{"name":"bytes","configuration":{"endian":"little"}}]}
  int32-little-1/c/0 = 01 02 03 04 ff ff ff fe
  int32-little-1/zarr.json = $stored_pair{"data_type":"int32","codecs":[{"name":"bytes","configuration":{"endian":"little"}},"x-reverse"]}
  int32-little-2/c/0 = fe ff ff ff 04 03 02 01
  int32-little-2/zarr.json = $stored_pair{"data_type":"int32","codecs":[{"name":"bytes","configuration":{"endian":"little"}},"x-reverse","x-reverse"]}
  int32-big-0/c/0 = ff ff ff fe 01 02 03 04
  int32-big-0/zarr.json = $stored_pair{"data_type":"int32","codecs":[{"name":"bytes","configuration":{"endian":"big"}}]}
  int32-big-1/c/0 = 04 03 02 01 fe ff ff ff
  int32-big-1/zarr.json = $stored_pair{"data_type":"int32","codecs":[{"name":"bytes","configuration":{"endian":"big"}},"x-reverse"]}
  int32-big-2/c/0 = ff ff ff fe 01 02 03 04
  int32-big-2/zarr.json = $stored_pair{"data_type":"int32","codecs":[{"name":"bytes","configuration":{"endian":"big"}},"x-reverse","x-reverse"]}
  int64-little-0/c/0 = fe ff ff ff ff ff ff ff 08 07 06 05 04 03 02 01
  int64-little-0/zarr.json = $stored_pair{"data_type":"int64","codecs":[{"name":"bytes","configuration":{"endian":"little"}}]}
  int64-little-1/c/0 = 01 02 03 04 05 06 07 08 ff ff ff ff ff ff ff fe
  int64-little-1/zarr.json = $stored_pair{"data_type":"int64","codecs":[{"name":"bytes","configuration":{"endian":"little"}},"x-reverse"]}
  int64-little-2/c/0 = fe ff ff ff ff ff ff ff 08 07 06 05 04 03 02 01
  int64-little-2/zarr.json = $stored_pair{"data_type":"int64","codecs":[{"name":"bytes","configuration":{"endian":"little"}},"x-reverse","x-reverse"]}
  int64-big-0/c/0 = ff ff ff ff ff ff ff fe 01 02 03 04 05 06 07 08
  int64-big-0/zarr.json = $stored_pair{"data_type":"int64","codecs":[{"name":"bytes","configuration":{"endian":"big"}}]}
  int64-big-1/c/0 = 08 07 06 05 04 03 02 01 fe ff ff ff ff ff ff ff
  int64-big-1/zarr.json = $stored_pair{"data_type":"int64","codecs":[{"name":"bytes","configuration":{"endian":"big"}},"x-reverse"]}
  int64-big-2/c/0 = ff ff ff ff ff ff ff fe 01 02 03 04 05 06 07 08
  int64-big-2/zarr.json = $stored_pair{"data_type":"int64","codecs":[{"name":"bytes","configuration":{"endian":"big"}},"x-reverse","x-reverse"]}
  uint2-little-0/c/0 = 01 03
  uint2-little-0/zarr.json = $stored_pair{"data_type":"uint2","codecs":[{"name":"bytes","configuration":{"endian":"little"}}]}
  uint2-little-1/c/0 = 03 01
  uint2-little-1/zarr.json = $stored_pair{"data_type":"uint2","codecs":[{"name":"bytes","configuration":{"endian":"little"}},"x-reverse"]}
  uint2-little-2/c/0 = 01 03
  uint2-little-2/zarr.json = $stored_pair{"data_type":"uint2","codecs":[{"name":"bytes","configuration":{"endian":"little"}},"x-reverse","x-reverse"]}
  uint2-big-0/c/0 = 01 03
  uint2-big-0/zarr.json = $stored_pair{"data_type":"uint2","codecs":[{"name":"bytes","configuration":{"endian":"big"}}]}
  uint2-big-1/c/0 = 03 01
  uint2-big-1/zarr.json = $stored_pair{"data_type":"uint2","codecs":[{"name":"bytes","configuration":{"endian":"big"}},"x-reverse"]}
  uint2-big-2/c/0 = 01 03
  uint2-big-2/zarr.json = $stored_pair{"data_type":"uint2","codecs":[{"name":"bytes","configuration":{"endian":"big"}},"x-reverse","x-reverse"]}
  uint4-little-0/c/0 = 01 0f
  uint4-little-0/zarr.json = $stored_pair{"data_type":"uint4","codecs":[{"name":"bytes","configuration":{"endian":"little"}}]}
  uint4-little-1/c/0 = 0f 01
  uint4-little-1/zarr.json = $stored_pair{"data_type":"uint4","codecs":[{"name":"bytes","configuration":{"endian":"little"}},"x-reverse"]}
  uint4-little-2/c/0 = 01 0f
  uint4-little-2/zarr.json = $stored_pair{"data_type":"uint4","codecs":[{"name":"bytes","configuration":{"endian":"little"}},"x-reverse","x-reverse"]}
  uint4-big-0/c/0 = 01 0f
  uint4-big-0/zarr.json = $stored_pair{"data_type":"uint4","codecs":[{"name":"bytes","configuration":{"endian":"big"}}]}
  uint4-big-1/c/0 = 0f 01
  uint4-big-1/zarr.json = $stored_pair{"data_type":"uint4","codecs":[{"name":"bytes","configuration":{"endian":"big"}},"x-reverse"]}
  uint4-big-2/c/0 = 01 0f
  uint4-big-2/zarr.json = $stored_pair{"data_type":"uint4","codecs":[{"name":"bytes","configuration":{"endian":"big"}},"x-reverse","x-reverse"]}
  uint8-little-0/c/0 = 01 ff
  uint8-little-0/zarr.json = $stored_pair{"data_type":"uint8","codecs":[{"name":"bytes","configuration":{"endian":"little"}}]}
  uint8-little-1/c/0 = ff 01
  uint8-little-1/zarr.json = $stored_pair{"data_type":"uint8","codecs":[{"name":"bytes","configuration":{"endian":"little"}},"x-reverse"]}
  uint8-little-2/c/0 = 01 ff
  uint8-little-2/zarr.json = $stored_pair{"data_type":"uint8","codecs":[{"name":"bytes","configuration":{"endian":"little"}},"x-reverse","x-reverse"]}
  uint8-big-0/c/0 = 01 ff
  uint8-big-0/zarr.json = $stored_pair{"data_type":"uint8","codecs":[{"name":"bytes","configuration":{"endian":"big"}}]}
  uint8-big-1/c/0 = ff 01
  uint8-big-1/zarr.json = $stored_pair{"data_type":"uint8","codecs":[{"name":"bytes","configuration":{"endian":"big"}},"x-reverse"]}
  uint8-big-2/c/0 = 01 ff
  uint8-big-2/zarr.json = $stored_pair{"data_type":"uint8","codecs":[{"name":"bytes","configuration":{"endian":"big"}},"x-reverse","x-reverse"]}
  uint16-little-0/c/0 = 01 00 00 ff
  uint16-little-0/zarr.json = $stored_pair{"data_type":"uint16","codecs":[{"name":"bytes","configuration":{"endian":"little"}}]}
  uint16-little-1/c/0 = ff 00 00 01
  uint16-little-1/zarr.json = $stored_pair{"data_type":"uint16","codecs":[{"name":"bytes","configuration":{"endian":"little"}},"x-reverse"]}
  uint16-little-2/c/0 = 01 00 00 ff
  uint16-little-2/zarr.json = $stored_pair{"data_type":"uint16","codecs":[{"name":"bytes","configuration":{"endian":"little"}},"x-reverse","x-reverse"]}
  uint16-big-0/c/0 = 00 01 ff 00
  uint16-big-0/zarr.json = $stored_pair{"data_type":"uint16","codecs":[{"name":"bytes","configuration":{"endian":"big"}}]}
  uint16-big-1/c/0 = 00 ff 01 00
  uint16-big-1/zarr.json = $stored_pair{"data_type":"uint16","codecs":[{"name":"bytes","configuration":{"endian":"big"}},"x-reverse"]}
  uint16-big-2/c/0 = 00 01 ff 00
  uint16-big-2/zarr.json = $stored_pair{"data_type":"uint16","codecs":[{"name":"bytes","configuration":{"endian":"big"}},"x-reverse","x-reverse"]}
  uint32-little-0/c/0 = 04 03 02 01 fe ff ff ff
  uint32-little-0/zarr.json = $stored_pair{"data_type":"uint32","codecs":[{"name":"bytes","configuration":{"endian":"little"}}]}
  uint32-little-1/c/0 = ff ff ff fe 01 02 03 04
  uint32-little-1/zarr.json = $stored_pair{"data_type":"uint32","codecs":[{"name":"bytes","configuration":{"endian":"little"}},"x-reverse"]}
  uint32-little-2/c/0 = 04 03 02 01 fe ff ff ff
  uint32-little-2/zarr.json = $stored_pair{"data_type":"uint32","codecs":[{"name":"bytes","configuration":{"endian":"little"}},"x-reverse","x-reverse"]}
  uint32-big-0/c/0 = 01 02 03 04 ff ff ff fe
  uint32-big-0/zarr.json = $stored_pair{"data_type":"uint32","codecs":[{"name":"bytes","configuration":{"endian":"big"}}]}
  uint32-big-1/c/0 = fe ff ff ff 04 03 02 01
  uint32-big-1/zarr.json = $stored_pair{"data_type":"uint32","codecs":[{"name":"bytes","configuration":{"endian":"big"}},"x-reverse"]}
  uint32-big-2/c/0 = 01 02 03 04 ff ff ff fe
  uint32-big-2/zarr.json = $stored_pair{"data_type":"uint32","codecs":[{"name":"bytes","configuration":{"endian":"big"}},"x-reverse","x-reverse"]}
  uint64-little-0/c/0 = 08 07 06 05 04 03 02 01 fe ff ff ff ff ff ff ff
  uint64-little-0/zarr.json = $stored_pair{"data_type":"uint64","codecs":[{"name":"bytes","configuration":{"endian":"little"}}]}
  uint64-little-1/c/0 = ff ff ff ff ff ff ff fe 01 02 03 04 05 06 07 08
  uint64-little-1/zarr.json = $stored_pair{"data_type":"uint64","codecs":[{"name":"bytes","configuration":{"endian":"little"}},"x-reverse"]}
  uint64-little-2/c/0 = 08 07 06 05 04 03 02 01 fe ff ff ff ff ff ff ff
  uint64-little-2/zarr.json = $stored_pair{"data_type":"uint64","codecs":[{"name":"bytes","configuration":{"endian":"little"}},"x-reverse","x-reverse"]}
  uint64-big-0/c/0 = 01 02 03 04 05 06 07 08 ff ff ff ff ff ff ff fe
  uint64-big-0/zarr.json = $stored_pair{"data_type":"uint64","codecs":[{"name":"bytes","configuration":{"endian":"big"}}]}
  uint64-big-1/c/0 = fe ff ff ff ff ff ff ff 08 07 06 05 04 03 02 01
  uint64-big-1/zarr.json = $stored_pair{"data_type":"uint64","codecs":[{"name":"bytes","configuration":{"endian":"big"}},"x-reverse"]}
  uint64-big-2/c/0 = 01 02 03 04 05 06 07 08 ff ff ff ff ff ff ff fe
  uint64-big-2/zarr.json = $stored_pair{"data_type":"uint64","codecs":[{"name":"bytes","configuration":{"endian":"big"}},"x-reverse","x-reverse"]}
