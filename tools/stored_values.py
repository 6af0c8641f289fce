"""What is stored for the cells of a chunk, for tools/generated_stories and tools/generated_shards: by the rules of the Zarr core
specification for `bytes` and the codecs between arrays, of the Zarr sharding codec, and of this repository for packed bits, strings,
optional cells, and subchunks that don't divide their shard.

Cells are a list, row-major, of values as they stand in lines: numbers, booleans, texts, or null or a list of one value.
"""
import functools
import itertools
import math

# Data types: the bits of a value, and whether it has a sign. A value of a bool is false or true.
TYPES = {"bool": (1, False)}
TYPES.update((f"int{bits}", (bits, True)) for bits in (2, 4, 8, 16, 32, 64))
TYPES.update((f"uint{bits}", (bits, False)) for bits in (2, 4, 8, 16, 32, 64))
LITTLE = {"name": "bytes", "configuration": {"endian": "little"}}


def places(box):
    """The places of a box, row-major."""
    return list(itertools.product(*(range(start, end) for start, end in box)))


def places_below(shape):
    return places([[0, size] for size in shape])


def number(count, length=8):
    return count.to_bytes(length, "little")


class Chain:
    """Codecs, and some values of the data type that they store. `takes_parts` is whether a part is put into what is stored, and `fits`
    whether the codecs suit the shape of the cells."""

    takes_parts, fits = False, True

    def of(self, _shape):
        """The same codecs for cells of another shape."""
        return self

    def fields(self):
        """Of a document."""
        return {"data_type": self.name, "codecs": self.codecs()}

    def put(self, _value, cells, _numbers):
        """What is stored once the cells with these numbers are put into a value, if there is one; none where the key is taken away.
        All cells are given."""
        return self.stored(cells)

    def compacted(self, value):
        return value


class Elements(Chain):
    """Each cell in bytes of its own, whose order is turned so often as a whole."""

    def __init__(self, name="uint8", endian=None, reversals=0):
        self.name, self.endian, self.reversals = name, endian, reversals
        self.takes_parts = not reversals
        self.bits, self.is_signed = TYPES[name]
        self.size = max(1, self.bits // 8)
        self.least = -(1 << self.bits - 1) if self.is_signed else 0
        self.greatest = self.least + (1 << self.bits) - 1
        # values whose bytes differ, the least and the greatest one among them
        between = [0x123456789ABCDEF % (1 << self.bits) + self.least, 0, 1]
        numbers = [self.least, self.greatest] + [n for n in between if n not in (self.least, self.greatest)]
        self.values = [False, True] if name == "bool" else numbers

    def codecs(self):
        codec = {"name": "bytes", "configuration": {"endian": self.endian}} if self.endian else "bytes"
        return [codec] + ["x-reverse"] * self.reversals

    def stored(self, cells):
        """A number with fewer bits than its byte is stored as that byte's number."""
        order = self.endian or "little"
        value = b"".join(int(cell).to_bytes(self.size, order, signed=self.is_signed) for cell in cells)
        return value[::-1] if self.reversals % 2 else value


class Bits(Elements):
    """The bits of one cell behind those of another, the lowest first, with a byte that says how many are left over, or without."""

    def __init__(self, name, padding="none"):
        super().__init__(name)
        self.padding, self.takes_parts = padding, False

    def codecs(self):
        return [{"name": "packbits", "configuration": {"padding_encoding": self.padding}}]

    def stored(self, cells):
        packed = sum(int(cell) % (1 << self.bits) << self.bits * n for n, cell in enumerate(cells))
        length = -(-self.bits * len(cells) // 8)
        left = number(8 * length - self.bits * len(cells), 1)
        value = number(packed, length)
        return {"none": value, "first_byte": left + value, "last_byte": value + left}[self.padding]


class Texts(Chain):
    """Strings one behind another, with an index of their ends in front or behind."""

    name, values = "string", ["", "a", "bcd", "\u00e9"]

    def __init__(self, location):
        self.location = location

    def codecs(self):
        configuration = {"index_codecs": [LITTLE], "data_codecs": ["bytes"], "index_data_type": "uint32"}
        return [{"name": "vlen", "configuration": {**configuration, "index_location": self.location}}]

    def stored(self, cells):
        texts = [cell.encode() for cell in cells]
        index = b"".join(number(end, 4) for end in itertools.accumulate(map(len, texts), initial=0))
        parts = [number(len(index)), index, b"".join(texts)]
        return b"".join(parts if self.location == "start" else [parts[2], index, parts[0]])


class Optionals(Chain):
    """A bit for each cell, and those that are there."""

    def __init__(self, inside):
        self.inside = inside
        self.name = {"name": "zarrs.optional", "configuration": {"name": inside.name}}
        self.values = [None] + [[value] for value in inside.values]

    def codecs(self):
        configuration = {"mask_codecs": ["packbits"], "data_codecs": self.inside.codecs()}
        return [{"name": "zarrs.optional", "configuration": configuration}]

    def stored(self, cells):
        mask = Bits("bool").stored([cell is not None for cell in cells])
        data = self.inside.stored([cell[0] for cell in cells if cell is not None])
        return number(len(mask)) + number(len(data)) + mask + data


def turned(kind, given, shape):
    """The numbers of the cells of this shape as a codec between arrays of this kind, with this order or these sizes, gives them on, and the
    shape that it makes."""
    every = list(range(math.prod(shape)))
    if kind == "reshape":
        return every, [len(every)]
    if kind == "squeeze":
        return every, [size for size in shape if size > 1] or [1]
    made = [shape[n] for n in given]
    at = dict(zip(places_below(shape), every))
    return [at[tuple(place[given.index(n)] for n in range(len(shape)))] for place in places_below(made)], made


class Turned(Chain):
    """The cells of this shape in turn, as a codec between arrays of this kind gives them to others: `transpose` with an order, `reshape`
    with one size, or -1 for any, or `squeeze`."""

    def __init__(self, kind, given, shape, inside):
        self.kind, self.given, self.name = kind, given, inside.name
        self.numbers, made = turned(kind, given, shape)
        self.inside = inside.of(tuple(made))
        self.fits = self.inside.fits and (kind != "reshape" or given in ([-1], made))
        self.takes_parts = inside.takes_parts and not (kind == "reshape" and isinstance(inside, Shard))

    @functools.lru_cache(maxsize=None)
    def of(self, shape):
        return Turned(self.kind, self.given, shape, self.inside)

    def codecs(self):
        field = {"transpose": "order", "reshape": "shape"}.get(self.kind)
        codec = {"name": self.kind, "configuration": {field: self.given}} if field else self.kind
        return [codec, *self.inside.codecs()]

    def stored(self, cells):
        return self.inside.stored([cells[n] for n in self.numbers])

    def put(self, value, cells, numbers):
        own = {k for k, n in enumerate(self.numbers) if n in numbers}
        return self.inside.put(value, [cells[n] for n in self.numbers], own)

    def compacted(self, value):
        return self.inside.compacted(value)


class Shard(Chain):
    """Subchunks, row-major, by what stores the cells of one, with an index in front or behind; the order of all bytes is turned so often.
    There are as many subchunks along a dimension as the size divided by the edge, rounded up; the last one ends with the shard."""

    def __init__(self, shape, subchunk, inside, fill, at_start, reversals=0):
        self.subchunk, self.inside, self.fill = subchunk, inside, fill
        self.at_start, self.reversals, self.name = at_start, reversals, inside.name
        self.takes_parts = not reversals
        # For each subchunk what stores its cells, and their numbers.
        self.subchunks = list(self.cut(shape)) if len(shape) == len(subchunk) else []
        self.fits = len(shape) == len(subchunk) and all(own.fits for own, _ in self.subchunks)
        self.index_size = 16 * len(self.subchunks)

    def cut(self, shape):
        numbers = {place: n for n, place in enumerate(places_below(shape))}
        counts = [-(-size // edge) for size, edge in zip(shape, self.subchunk)]
        for at in places_below(counts):
            box = [[n * edge, min((n + 1) * edge, size)] for n, edge, size in zip(at, self.subchunk, shape)]
            yield self.inside.of(tuple(end - start for start, end in box)), [numbers[place] for place in places(box)]

    @functools.lru_cache(maxsize=None)
    def of(self, shape):
        return Shard(shape, self.subchunk, self.inside, self.fill, self.at_start, self.reversals)

    def codecs(self):
        location = "start" if self.at_start else "end"
        parts = {"chunk_shape": list(self.subchunk), "codecs": self.inside.codecs(), "index_codecs": [LITTLE], "index_location": location}
        return [{"name": "sharding_indexed", "configuration": parts}] + ["x-reverse"] * self.reversals

    def value_of(self, data, pairs):
        """The value with these slices, and for each subchunk where its slice starts in them and how long it is, or none."""
        first = self.index_size if self.at_start else 0
        index = b"".join(number(first + pair[0]) + number(pair[1]) if pair else b"\xff" * 16 for pair in pairs)
        return index + data if self.at_start else data + index

    def parts_of(self, value):
        """The slices of a value, and the pairs."""
        size = self.index_size
        index, data = (value[:size], value[size:]) if self.at_start else (value[-size:], value[:-size])
        first = size if self.at_start else 0
        numbers = [int.from_bytes(index[n : n + 8], "little") for n in range(0, size, 8)]
        return data, [(start - first, length) if start + 1 < 1 << 64 else None for start, length in zip(numbers[::2], numbers[1::2])]

    def appended(self, data, pairs, cells, numbers):
        """The slices and pairs once each subchunk that has one of these numbers is encoded anew, behind the others."""
        pairs = list(pairs)
        for k, (inside, own) in enumerate(self.subchunks):
            if numbers.isdisjoint(own):
                continue
            inner, pairs[k] = [cells[n] for n in own], None
            if any(cell != self.fill for cell in inner):
                value = inside.stored(inner)
                pairs[k] = (len(data), len(value))
                data += value
        return data, pairs

    def stored(self, cells):
        nothing = [None] * len(self.subchunks)
        value = self.value_of(*self.appended(b"", nothing, cells, set(range(len(cells)))))
        return value[::-1] if self.reversals % 2 else value

    def put(self, value, cells, numbers):
        data, pairs = self.parts_of(value) if value else (b"", [None] * len(self.subchunks))
        data, pairs = self.appended(data, pairs, cells, numbers)
        return self.value_of(data, pairs) if any(pairs) else None

    def compacted(self, value):
        """The slices row-major and without gaps, where the value has another length then. Whole values have no gaps."""
        if self.reversals:
            return value
        data, pairs = self.parts_of(value)
        slices = [data[pair[0] : sum(pair)] if pair else b"" for pair in pairs]
        starts = itertools.accumulate(map(len, slices), initial=0)
        made = self.value_of(b"".join(slices), [pair and (start, pair[1]) for pair, start in zip(pairs, starts)])
        return value if len(made) == len(value) else made
