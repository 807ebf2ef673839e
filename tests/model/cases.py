"""Boards made field by field, and reports and rows altered at random, for make_boards.py. The answers are opening.py's; here stands only
what is given. Each group yields cases."""
import copy, random, struct
from itertools import accumulate

import boards
import mangle
from opening import DATE, REVISION, Call, Lent, lent_of, opening
from records import NONE
from rows import NARROW, ROM_WORDS, SET_WORDS, NAME_WIDTH, words

B = 0x08000000
C = 0x10000000
BANDS = ((0, 3, 9, 1), (0, 4, 0, 0), (0, 5, 0, 7), (0, 5, 1, 0), (0, 6, 0, 0), (0, 6, 9, 0))
NOT_GIVEN, CS1, X1, X2 = (0, 0, 0, 0, 0), (2, 0, 0, 0, 0), (0, 0, 0, 2, 0), (0, 0, 0, 0, 2)
SETS_AT = 96
END = 400


def pins_record(words):
    """The 88 bytes whose pins item is the words, the number aside (opening.py); a refused item's pins are zeros."""
    p = bytearray(88)
    p[0:6] = bytes(words[1:7])
    p[8:32] = bytes(words[7:31])
    p[36:47] = bytes(words[31:42])
    p[50:61] = bytes(words[42:53])
    p[63] = words[53]
    p[64:88] = bytes(words[54:78])
    return bytes(p)


class Board:
    def __init__(self, image, set_words, rom_words, calls=(), cuts=(), settings=(B, C, 0)):
        self.given = image, settings, set_words, rom_words, calls, cuts

    def run(self, out):
        out.board(*self.given)


class Report:
    def __init__(self, image, lent, calls):
        self.given = image, lent, calls

    def run(self, out):
        out.lent(*self.given)


class OtherWidths(Report):
    """The same with other widths in the ROM rows, at which no call looks (document 02, wish 3)."""

    def run(self, out):
        image, lent, calls = self.given
        other = copy.copy(lent)
        other.roms = [w ^ NONE if i % ROM_WORDS == NAME_WIDTH else w for i, w in enumerate(lent.roms)]
        assert [c.answer(other, image) for c in calls] == [c.answer(lent, image) for c in calls]
        out.lent(image, other, calls)


def both(i, address, levels, count=0):
    """The old logical read and wish 1's, with the same arguments."""
    return [Call(kind, i, address, levels, 1, count) for kind in ("logical", "own")]


def own_beside(rng, calls, lent, image):
    """Wish 1's read beside each logical one; and both reads of two sets, at a place that the new one accepts where one is found soon."""
    own = [Call("own", c.set, c.address, c.levels, 1, c.count) for c in calls if c.kind == "logical"]
    for i in {0, rng.randrange(max(1, lent.served))} - {lent.served}:
        for _ in range(40):
            reads = both(i, rng.choice((0, 1, 5, 39, rng.randrange(2048), rng.randrange(65536))), [rng.randrange(3) for _ in range(5)])
            if reads[1].answer(lent, image)[0] == 0:
                break
        own += reads
    return own


# ---- boards for the walk


class Rom:
    """name: the name pointer, None for FFFFFFFF; pointer: the table's entry, None for where the info is put"""

    def __init__(self, kind=2, states=(0, 1, 2), name=None, pointer=None):
        self.kind, self.states, self.name, self.pointer = kind, states, name, pointer


class Set:
    def __init__(self, roms=(), data=B + 5, size=40, serve=1, state=2, extra=0, config=0, overrides=0, table=None):
        self.roms, self.data, self.size, self.serve, self.state = roms, data, size, serve, state
        self.extra, self.config, self.overrides, self.table = extra, config, overrides, table


def is_long(version, s):
    return s.extra == 1 and version >= (0, 6, 0, 0)


def walk_image(version, sets, base=B, line=1, logging=0, end=0, **header):
    """A header, metadata from 0.5.0 whose last part the sets stand in, the sets, then tables and infos; at least `end` bytes."""
    image = bytearray(boards.header(version, line, 2, 84, [0, 0, 0, 0, 0, logging, 0], header.get("count", len(sets)), 0, 0, 0, 0, 0, NONE))
    pointer = header.get("pointer", base + SETS_AT)
    image[44:48] = struct.pack("<I", pointer)
    if version >= (0, 5, 0, 0):
        image[44:48] = struct.pack("<I", base + 64)
        image += b"ONEROM_METADATA\0" + struct.pack("<IBxxxI", 1, header.get("count", len(sets)), pointer)
        end = max(end, 320)
    at, body = SETS_AT, SETS_AT + sum(64 if is_long(version, s) else 16 for s in sets) + 48
    image += bytes(body - len(image))
    for s in sets:
        table = s.table
        if s.roms and table is None:
            table = base + len(image)
            infos = table + 4 * len(s.roms)
            image += b"".join(struct.pack("<I", infos + 8 * i if r.pointer is None else r.pointer) for i, r in enumerate(s.roms))
            for r in s.roms:
                image += bytes([r.kind, *r.states]) + struct.pack("<I", NONE if r.name is None else r.name)
        row = struct.pack("<IIIBBBB", s.data, s.size, table or 0, len(s.roms), s.serve, s.state, s.extra)
        image[at : at + 16] = row
        if s.extra and (is_long(version, s) or s is sets[-1]):
            image[at + 16 : at + 24] = struct.pack("<II", s.config, s.overrides)
        at += 64 if is_long(version, s) else 16
    return bytes(image) + bytes(max(0, end - len(image)))


def rows_of(sets):
    return words(len(sets), sum(len(s.roms) for s in sets))


def calls_on(sets):
    """Size of each set and past the last, and some pairs."""
    last = len(sets)
    yield from (Call("size", i) for i in sorted({0, 1, last - 1, last, 255, 256, NONE} - {-1}))
    yield from (Call("same", a, b) for a, b in ((0, 0), (0, 1), (0, last), (last, 0), (max(0, last - 1), 0)))


def walked(version, sets, short=(0, 0), **given):
    """A board whose row buffers are so many words shorter than its rows; longer where that is negative."""
    image = walk_image(version, sets, **given)
    assert "end" not in given or len(image) == given["end"], len(image)
    n, m = rows_of(sets)
    return Board(image, max(0, n - short[0]), max(0, m - short[1]), [Call("size", 1), Call("same", 0, 1)])


def counts():
    """0, 1, 2 and 255 sets at both strides; row buffers exact, a word short, empty, longer."""
    for version in BANDS:
        yield walked(version, [])
        yield walked(version, [], (-2, -2))
        for n in (1, 2):
            for extra in (0, 1):
                sets = some_sets(version, n, extra, [Rom(kind=i) for i in (33, 0, 7)])
                for short in ((0, 0), (1, 0), (0, 1), (1, 1), (-3, -9), (8, 0), (99, 99)):
                    yield walked(version, sets, short)
        for extra in (0, 1):
            yield from full(version, some_sets(version, 255, extra, [Rom(kind=14)]), (version in (BANDS[0], BANDS[5])))
    yield from fullest()


def some_sets(version, n, extra, roms):
    """Below 0.6.0 a set's pointers are the next one's data pointer and size, so those sizes are 0 and FFFFFFFF."""
    sizes = (0, 1, NONE) if version >= (0, 6, 0, 0) else (0, NONE)
    return [Set(roms, extra=extra, data=B + i, size=sizes[i % len(sizes)], serve=i % 3, state=i // 3 % 3) for i in range(n)]


def with_table(version, sets, infos):
    """An image of sets whose tables are one table, at its end, so that the image stays small."""
    end = SETS_AT + sum(64 if is_long(version, s) else 16 for s in sets) + 48
    for s in sets:
        s.table = B + end
    roms = sets[0].roms
    table = b"".join(struct.pack("<I", B + end + 4 * len(roms) + 8 * (i % len(infos))) for i in range(len(roms)))
    return walk_image(version, sets)[:end] + table + b"".join(infos)


def info_bytes(rom):
    return bytes([rom.kind, *rom.states]) + struct.pack("<I", NONE if rom.name is None else rom.name)


def full(version, sets, all_lengths):
    image = with_table(version, sets, [info_bytes(sets[0].roms[0])])
    n, m = rows_of(sets)
    for short in ((0, 0), (1, 0), (0, 1), (-5, -5)) if all_lengths else ((0, 0),):
        yield Board(image, n - short[0], m - short[1], list(calls_on(sets)))


def fullest():
    """255 sets of 255 ROMs, and that with the last ROM refused."""
    for kind in (33, 34):
        sets = some_sets((0, 6, 9, 0), 255, 0, [Rom()] * 255)
        infos = [info_bytes(Rom(kind=i % 34, states=(i % 3, i // 3 % 3, i // 9 % 3), name=(None, B - 1, B, B + 64)[i % 4])) for i in range(254)]
        image = with_table((0, 6, 9, 0), sets, infos + [info_bytes(Rom(kind=kind))])
        n, m = rows_of(sets)
        yield Board(image, n + 1, m + 5, list(calls_on(sets)))


def pointers():
    """Serve config and overrides: absent, at the edges of the image and of the addresses, counted or not."""
    for version in ((0, 3, 9, 1), (0, 4, 0, 0), (0, 5, 0, 7), (0, 5, 1, 0), (0, 6, 0, 0), (0, 6, 9, 0)):
        size = len(walk_image(version, [Set([Rom()]), Set([Rom()], extra=1)], end=END))
        places = (0, NONE, B, B + size - 64, B + size - 63, B + size, B - 1, 1, NONE - 1)
        for p in places:
            for q in (0, p, NONE) if p != 0 else places:
                yield walked(version, [Set([Rom()]), Set([Rom()], extra=1, config=p, overrides=q)], end=END)
            if version >= (0, 6, 0, 0):
                yield walked(version, [Set([Rom()], extra=1, config=p, overrides=0), Set([Rom()])], end=size)
            else:
                # the next set's data pointer and size
                yield walked(version, [Set([Rom()], extra=1), Set([Rom()], data=p, size=0)], end=END)
                yield walked(version, [Set([Rom()], extra=1), Set([Rom()], data=NONE, size=p)], end=END)
        for extra in (2, 3, 129, 255):
            yield walked(version, [Set([Rom()], extra=extra, config=1, overrides=1), Set([Rom()], extra=extra, config=B - 1, overrides=B - 1)], end=END)


def faulty(version):
    """Sets with one fault, and some with two, of which the earlier counts. The image of the board has END bytes."""
    last = B + END
    r = Rom()
    for serve in (3, 255):
        yield Set([r], serve=serve)
    for state in (3, 255):
        yield Set([r], state=state)
    yield Set([r], serve=3, state=3, table=B - 1)
    yield Set([r], state=3, table=0, extra=1, config=1)
    yield Set([r], extra=1, config=last - 63, table=B - 1)
    yield Set([r], extra=1, config=B, overrides=last - 63, table=B - 1)
    yield Set([r], extra=1, config=NONE, overrides=B - 1)
    for table in (0, B - 1, last - 3, last, NONE, NONE - 2):
        yield Set([r], table=table)
    yield Set([r, r, r], table=last - 11)
    yield Set([], table=0)
    for bad in (
        [Rom(pointer=p) for p in (0, B - 1, last - 8, last - 7, last - 4, last - 3, last, NONE, NONE - 3)]
        + [Rom(kind=k) for k in (34, 35, 128, 255)]
        + [Rom(states=t) for t in ((3, 0, 0), (0, 3, 0), (0, 0, 3), (255, 255, 255))]
        + [Rom(kind=34, states=(3, 3, 3))]
    ):
        yield Set([bad])
        yield Set([r, r, bad])
    yield Set([Rom(kind=34), Rom(pointer=B - 1)])
    yield Set([Rom(states=(0, 3, 0)), Rom(kind=34)])


def refusals():
    """Each fault in set 0, in a later set and in the last; the sets pointer; a set in the last 64 bytes and one that is not whole."""
    for version in BANDS:
        for bad in faulty(version):
            yield walked(version, [bad, Set([Rom()])], end=END)
            if version in (BANDS[1], BANDS[2], BANDS[5]):
                yield walked(version, [Set([Rom(name=B + 64)]), Set([Rom()], extra=0), bad], end=END)
        good = [Set([Rom()]), Set([Rom(), Rom()])]
        for pointer in (0, 1, B - 1, B, B + END - 64, B + END - 63, B + END, NONE, NONE - 63):
            yield walked(version, good, end=END, pointer=pointer)
            yield walked(version, good, end=END, pointer=pointer, count=0)
            yield walked(version, good, (99, 99), end=END, pointer=pointer)
        # a table whose last entry is not whole, in set 0 and in a later one
        for sets in ([Set([Rom()] * 3, table=B + END - 11)], [good[0], Set([Rom()] * 3, table=B + END - 11)]):
            image = walk_image(version, sets, end=END)
            yield Board(image[: END - 11] + struct.pack("<II", B + 160, B + 161) + image[END - 3 :], *words(2, 4))
            yield Board(image[: END - 11] + struct.pack("<III", B + 160, B + 161, B + 162), *words(2, 4))
        # the last set's bytes end with the image, a byte before, and the table's
        image = walk_image(version, good)
        for n in sorted({0, 63, 64, 65, 96 + 63, 96 + 64, 96 + 79, 96 + 80, 96 + 81, 319, 320, 321} | set(range(len(image) - 13, len(image)))):
            if n <= len(image):
                yield Board(image[:n], *words(2, 3))


def named(version, logging, base, line, text, pointer=None, end=END):
    """A board whose two ROMs have the name that stands at the end of the image."""
    sets = [Set([Rom(name=base + end if pointer is None else pointer), Rom(kind=9, name=base + 64)], data=base)]
    image = walk_image(version, sets, base=base, line=line, logging=logging, end=end) + text
    return Board(image, *words(1, 2), [Call("size", 0), Call("raw raw", 0, 1)], settings=(B, base, 0) if line == 5 else (base, C, 0))


def names():
    """Every reason of a name, at each version, with boot logging off and on."""
    texts = [b"jib\0", b"\0", b"m\xc3\xa9\xe2\x82\xac\xf0\x9f\x92\xa9\0", b"\xc0\x80\0", b"\xed\xa0\x80\0", b"a" * 63 + b"\0", b"a" * 64]
    for version in BANDS:
        for logging in (0, 1, 255):
            for text in texts:
                yield named(version, logging, B, 1, text.ljust(64, b"z"))
            yield named(version, logging, B, 1, (b"short\0" + b"z" * 58)[:63])
            for pointer in (NONE, B - 1, 0, B, NONE - 1):
                yield named(version, logging, B, 1, b"", pointer)
    for base, line in ((C, 5), (0, 1), (2**32 - 2048, 0)):
        for n in (1022, 1023, 1024):
            yield named((0, 6, 1, 0), 0, base, line, (b"n" * n + b"\0").ljust(1088, b"\0")[: 1024 + 64 * (n == 1024)])


def settings():
    """Bases and offsets at the edges, for both lines."""
    for line, base in ((1, B), (5, C)):
        image = walk_image((0, 6, 1, 0), [Set([Rom(name=base + 64)], data=base)], base=base, line=line)
        for given in ((B, C, 0), (C, B, 0), (B, C, 1), (0, 0, 0), (B, 2**32 - len(image), 0), (B, 2**32 - len(image) + 1, 0),
                      (2**32 - len(image), C, 0), (2**32 - len(image) + 1, C, 0), (B, C, 2**32 - B), (B, C, 2**32 - B - 64), (NONE, NONE, NONE), (B, C, NONE)):
            yield Board(image, *words(1, 1), [Call("data", 0, 0, n=8), Call("size", 0)], settings=given)
        for n in (0, 7, 64):
            yield Board(bytes(n) + image, *words(1, 1), [Call("size", 0)], settings=(B, C, n))
    for version in ((0, 7, 0, 0), (0, 7, 0, 1), (1, 0, 0, 0), (0, 6, 65535, 65535)):
        yield walked(version, [Set([Rom()])])
    for at, value in ((0, 0x20), (28, 6), (29, 1), (30, 8), (31, 1), (64, 0), (79, 1), (80, 2), (84, 0), (88, 0)):
        image = bytearray(walk_image((0, 6, 1, 0), [Set([Rom()])]))
        image[at] = value
        yield Board(bytes(image), *words(1, 1), [Call("size", 0)])
    yield walked((0, 6, 1, 0), [Set([Rom()])], count=1, pointer=0)


# ---- document 01's bench cases on whole boards


def bench_board(kind, roms, pins, version=(0, 4, 0, 0), date=b"T4\0", extra=b""):
    """Strings at 512, pins at 320, extra info at the end, one set of 65,536 bytes that starts at the base."""
    image = bytearray(walk_image(version, [Set([Rom(kind=kind)] * roms, data=B, size=65536)], end=320))
    image += pins + bytes(512 - len(image) - len(pins)) + date
    image += bytes(-len(date) % 64)
    image[12:16] = struct.pack("<I", B + 512)
    image[24:28] = struct.pack("<I", B + 512)
    image[48:52] = struct.pack("<I", B + 320)
    if extra:
        image[56:60] = struct.pack("<I", B + len(image))
        image += extra
    return bytes(image)


def bench():
    yield from bench_strings()
    m1 = [Call("mangle", 0, a, levels) for a in (0, 5, 8191, 8192) for levels in ((2, 0, 0, 0, 0), (0, 0, 0, 0, 0), (1, 2, 2, 2, 2))]
    reads = [Call(k, 0, a, (2, 0, 0, 0, 0)) for k in ("logical", "logical raw", "raw", "raw raw", "own") for a in (0, 1, 5, 8191)]
    for up in (0, 8):
        pins = boards.pins(24, range(7, -1, -1), [up + p for p in range(13)] + [255] * 3, [up + 13, 255, 255], [255, 255], 255, 255)
        image = bench_board(2, 1, pins)
        yield Board(image + bytes(i % 251 for i in range(10000)), *words(1, 1), m1 + reads + [Call("demangle", 0, n) for n in (0, 1, 128, 255)])
    m4 = boards.pins(24, [0, 1, 2, 3, 4, 5, 6, 8], list(range(11)) + [255] * 5, [13, 11, 12], [255, 255], 255, 255)
    levels = [tuple(2 * (i >> k & 1) for k in range(5)) for i in range(32)]
    calls = [Call("mangle", 0, a, given) for a in (0, 2047, 2048) for given in levels] + [Call("demangle", 0, 1), Call("raw", 0, 3), Call("raw raw", 0, 3)]
    yield Board(bench_board(0, 1, m4), *words(1, 1), calls)
    yield Board(bench_board(0, 2, m4), *words(1, 2), calls)
    # an unknown USB port refuses nothing
    for port in (0, 5, 6, 255):
        for version in ((0, 4, 0, 0), (0, 6, 0, 0)):
            extra = struct.pack("<IBBBBI", 7, 2, port, 9, 3, 11).ljust(256, b"\x11")
            yield Board(bench_board(0, 1, m4, version, extra=extra), *words(1, 1))
            yield Board(bench_board(0, 1, m4, version, extra=extra[:-1]), *words(1, 1))


def bench_strings():
    """T4, and a readable NUL in a short chunk."""
    pins = boards.pins(28, range(8), range(16), [3, 4, 5], [255, 255], 9, 8)
    for date in (b"d" * 1023 + b"\0", b"d" * 1024, b"d" * 1024 + b"\0", b"d" * 1022 + b"\0\0", b"d" * 960, b"\xff" * 64, b"\xff" * 1024, b"\0"):
        image = bench_board(4, 1, pins, date=date)
        yield Board(image, *words(1, 1))
        yield Board(image[:-1], *words(1, 1))


# ---- small whole boards, cut at every length


def small_board(version, line, base, logging):
    """Everything in 616 bytes: records overlap, and each item ends elsewhere."""
    long = version >= (0, 6, 0, 0)
    meta = version >= (0, 5, 0, 0)
    second = 160 + (64 if long else 16)
    sets = base + (128 if meta else 160)
    config = (base + 480, NONE) if long else (base + 548, 0)
    parts = [
        (0, boards.header(version, line, 7, 150, [1, 0, 0, 0, 1, logging, 0], 2, 1, base + 64, base + 81, sets, base + 390, base + 300)),
        (64, b"Ju\xc3\xa9 2026!\0"),
        (81, b"fire-24\0"),
        (128, b"ONEROM_METADATA\0" + struct.pack("<IBxxxI", 1, 2, base + 160)),
        (160, struct.pack("<IIIBBBB", base + 548, 68, base + 290, 2, 0, 2, 1)),
        (176, struct.pack("<II", *config)),
        (second, struct.pack("<IIIBBBB", *(config if not long else (base + 10, 600)), base + 294, 1, 2, 0, 0)),
        (290, struct.pack("<II", base + 302, base + 310)),
        (302, bytes([2, 0, 2, 2]) + struct.pack("<I", base + 330)),
        (310, bytes([0, 0, 1, 2]) + struct.pack("<I", base + 338)),
        (318, bytes(range(40, 52))),
        (330, b"jib.bin\0genoa \xe2\x82\xac\0" + bytes([1] * 32)),
        (390, boards.pins(24, [7, 6, 5, 4, 3, 2, 1, 0], list(range(13)) + [255] * 3, [13, 14, 15], [16, 17], 255, 255)),
        (478, bytes(i * 7 % 256 for i in range(138))),
    ]
    return boards.place(616, parts if meta else [p for p in parts if p[0] != 128])


def small_reads():
    yield from (Call("data", 0, a, n=n) for a, n in ((0, 68), (0, 1), (67, 1), (10, 0), (68, 0), (0, 69)))
    yield from (Call("data", 1, a, n=n) for a, n in ((0, 600), (100, 200), (590, 10)))
    yield from (Call(k, i, a, CS1) for k in ("raw", "raw raw", "logical", "logical raw") for i in (0, 1) for a in (0, 5, 67))
    for i, a, levels in ((0, 5, CS1), (1, 5, CS1), (1, 0, NOT_GIVEN), (1, 67, NOT_GIVEN), (1, 599, NOT_GIVEN)):
        yield Call("own", i, a, levels)


def small():
    reads = list(small_reads())
    for version, line, base, logging in (
        ((0, 3, 9, 1), 1, B, 1), ((0, 4, 0, 0), 2, B, 0), ((0, 4, 9, 0), 5, C, 1), ((0, 5, 0, 7), 1, B, 0), ((0, 5, 0, 7), 1, B, 1),
        ((0, 5, 1, 0), 3, B, 0), ((0, 6, 0, 0), 5, C, 0), ((0, 6, 9, 0), 4, B, 1), ((0, 6, 9, 0), 0, 2**32 - 616, 0),
    ):  # fmt: skip
        image = small_board(version, line, base, logging)
        given = (base, C, 0) if line != 5 else (B, base, 0)
        n, m = words(2, 3)
        o = opening(image, given, n, m)
        assert o.number == 0 and o.served() == 2, (version, o.number, o.words)
        yield Board(image, n, m, reads, "all", given)
        yield Board(image, n + 3, m + 7, reads, "all", given)
    for image, line in ((boards.old, 1), (boards.new, 5)):
        yield Board(image, *words(2, 3), reads, "all")


# ---- rows altered at random

EDGES = (0, 1, 2, 3, 33, 34, 127, 128, 255, 256, 65535, 65536, 2**31, NONE - 1, NONE)


def some_pins(rng):
    board = list(rng.choice((mangle.BOARD24, mangle.BOARD28, mangle.BOARD28X)))
    if rng.random() < 0.5:
        board[rng.choice((0, 1, 8, 9, 24, 25, 26, 27, 28, 29, 30, 31))] = rng.choice((0, 3, 7, 8, 12, 15, 16, 24, 28, 255, rng.randrange(256)))
    words = [rng.choice((0,) * 12 + (2, 3, 50)), 1, 2, 3, 4, 5, board[0]] + board[1:9] + board[9:25] + board[25:28] + [1, 2, 3] + board[28:32]
    words += [9] + [rng.randrange(256) for _ in range(11)] + [1] + [rng.randrange(256) for _ in range(24)]
    return words if words[0] == 0 else [words[0]] + [0] * 77


def rom_row(kind, *states):
    """A ROM row without a name."""
    return [kind, *(states or (0, 0, 0)), 0, 0, 1, 0]


def some_rows(rng, base, size):
    """Rows of some sets with some of their words changed, and cut or not."""
    counts = [rng.choice((0, 1, 1, 2, 3)) for _ in range(rng.randrange(1, 6))]
    sets, roms = [], []
    for i, n in enumerate(counts):
        first = len(roms) // ROM_WORDS
        sets += [base + rng.randrange(size), rng.choice((1, 40, size, 65536, 131072)), first, n, rng.randrange(3), rng.randrange(3), 0, 0]
        for _ in range(n):
            roms += rom_row(rng.choice((2, 2, 0, 3, 8, 14, 26, rng.randrange(34))), 0, 1, 2)
    if rng.random() < 0.4 and len(counts) > 1:
        sets[8 + 1], sets[8 + 3], sets[8 + 4] = sets[1], sets[3], sets[4]
        roms[ROM_WORDS * sets[8 + 2] :] = roms[: ROM_WORDS * sets[3]] + roms[ROM_WORDS * (sets[8 + 2] + sets[8 + 3]) :]
    for rows in (sets, roms):
        for _ in range(rng.choice((0, 0, 1, 1, 2, 4))):
            if rows:
                rows[rng.randrange(len(rows))] = rng.choice(EDGES + (rng.randrange(2**32), base + rng.randrange(size)))
        if rng.random() < 0.3:
            del rows[len(rows) - rng.randrange(min(len(rows), 12) + 1) :]
    return sets, roms


def some_calls(rng, sets):
    for _ in range(20):
        kind = rng.choice(("mangle", "mangle", "demangle", "size", "same", "same", "data", "data", "raw", "raw raw", "logical", "logical raw"))
        i = rng.choice((0, 0, 1, 2, len(sets) // 8 - 1, rng.choice(EDGES)))
        address = rng.choice((0, 1, 2, 3, 5, 39, 2047, 8191, rng.randrange(8192), rng.choice(EDGES)))
        if kind == "demangle":
            address %= 256
        n = rng.choice((0, 1, 2, 7, 40, 200)) if kind == "data" else 1
        count = rng.choice((0, 0, 0, 5, NONE - 1, NONE, NONE - 40))
        yield Call(kind, max(0, i), address, [rng.randrange(3) for _ in range(5)], n, count)


def some_report(rng, own):
    """image, what is lent, the calls"""
    line = rng.randrange(6)
    size = rng.choice((0, 1, 40, 120, 200))
    flash, cs0 = rng.choice(((B, C), (C, B), (B, C), (0, 0), (2**32 - size, C), (B, 2**32 - size + 1), (2**32 - size, 2**32 - size)))
    if flash == 2**32:
        flash = NONE
    cs0 = min(cs0, NONE)
    image = bytes(rng.randrange(256) for _ in range(size))
    sets, roms = some_rows(rng, cs0 if line == 5 else flash, max(1, size))
    sets = [w % 2**32 for w in sets]
    served = rng.choice((0, len(sets) // 8, len(sets) // 8, len(sets) // 8, 1, 2, 255, 300))
    lent = Lent(flash, cs0, line, some_pins(rng), served, sets, roms)
    calls = list(some_calls(rng, sets))
    return image, lent, calls + own_beside(own, calls, lent, image)


def altered():
    """Every fifth stands there again with other widths."""
    rng, own = random.Random(20261116), random.Random(20261117)
    for number in range(300):
        report = some_report(rng, own)
        yield Report(*report)
        if number % 5 == 0:
            yield OtherWidths(*report)


# ---- the read by the set's own ROMs (document 02, wish 1)

# where the data of every set starts, and the offsets in it that hold a byte of their own; all others hold 0
DATA_AT = 1024
MARKED = (0, 5, 2048, 8191, 8192, 8197, 16389)


class At(int):
    """A reply that reads this offset."""


def yard_pins(cs1=13, x1=255, x2=255, data=range(7, -1, -1)):
    """28 pins, A0 to A14 on pins 0 to 14, OE and CE on 15"""
    return boards.pins(28, data, [*range(15), 255], [cs1, 255, 255], [x1, x2], 15, 15)


def yard(kinds, pins=yard_pins(), size=65536, end=65536):
    """A board of sets whose ROMs have these types, all on the same data, which the image has so many bytes of; and its row words."""
    sets = [Set([Rom(kind=k) for k in types], data=B + DATA_AT, size=size) for types in kinds]
    image = bytearray(walk_image((0, 4, 0, 0), sets, end=512))
    image[48:52] = struct.pack("<I", B + len(image) if pins else 0)
    image += pins
    image += bytes(DATA_AT + end - len(image))
    for i, offset in enumerate(MARKED):
        if offset < end:
            image[DATA_AT + offset] = 17 + i
    return bytes(image), *rows_of(sets)


class Told:
    """Reads on a board: set, address, levels, the old reply and the new one as the papers say or as worked out by hand, each a number or an
    offset. The board is opened, and lent as it opened; where something of it is altered, lent alone."""

    def __init__(self, given, *reads, count=0, **altered):
        self.image, self.words, self.reads, self.count, self.altered = given[0], given[1:], reads, count, altered

    def lent(self):
        lent = lent_of(opening(self.image, (B, C, 0), *self.words), (B, C, 0), *self.words)
        for name, value in self.altered.items():
            if isinstance(value, dict):
                for at, word in value.items():
                    getattr(lent, name)[at] = word
            else:
                setattr(lent, name, value)
        return lent

    def reply(self, told):
        """A byte is demangled by the data pins 7 to 0."""
        if not isinstance(told, At):
            return told, b"", self.count
        assert told in MARKED
        return 0, bytes([int("{:08b}".format(self.image[DATA_AT + told])[::-1], 2)]), self.count + 1

    def run(self, out):
        lent, calls = self.lent(), []
        for i, address, levels, *told in self.reads:
            for call, answer in zip(both(i, address, levels, self.count), told):
                assert call.answer(lent, self.image) == self.reply(answer), (vars(call), call.answer(lent, self.image), answer)
                calls.append(call)
        if not self.altered:
            cuts = {0, len(self.image)} | {DATA_AT + offset + k for offset in MARKED for k in (0, 1)}
            out.board(self.image, (B, C, 0), *self.words, calls, sorted(n for n in cuts if n <= len(self.image)))
        out.lent(self.image, lent, calls)


def own_papers():
    """The cases that the papers give: set 0 a 2364, set 1 a 27256, or as said."""
    mixed, no_pins = yard([[2], [12]]), yard([[2], [12]], pins=b"")
    yield Told(mixed, (1, 8192, NOT_GIVEN, 77, At(8192)), (1, 5, CS1, At(8197), At(5)), (0, 5, CS1, At(8197), At(8197)))
    yield Told(no_pins, (2, 5, CS1, 70, 80))
    yield Told(no_pins, (1, 5, CS1, 70, 4), sets=[B + DATA_AT, 65536, 0, 1, 0, 0, 0, 0])
    yield Told(yard([]), (0, 5, CS1, 71, 80))
    yield Told(yard([[], [12]]), (1, 8192, NOT_GIVEN, 74, At(8192)))
    yield Told(yard([[2], []]), (1, 5, CS1, 4, 74), roms=[])
    yield Told(yard([[2, 2], [12]], yard_pins(x1=5, x2=15)), (1, 8192, NOT_GIVEN, 73, At(8192)))
    yield Told(mixed, (0, 5, CS1, 4, 4), (1, 5, CS1, 4, At(5)), (1, 8192, NOT_GIVEN, 4, At(8192)), roms={0: 34})


def own_rows():
    """1, 80 and 4: rows that are lacking or end early, and row numbers whose words pass 2^32. Set 1's row has its first ROM row in word 10 and
    its ROM count in word 11."""
    mixed, no_pins = yard([[2], [12]]), yard([[2], [12]], pins=b"")
    yield Told(mixed, (2, 5, CS1, 1, 1), flash=NONE)
    yield Told(mixed, (0, 5, CS1, 4, 4), (1, 5, CS1, 4, 4), (2, 5, CS1, 4, 80), sets=[])
    yield Told(mixed, (2, 5, CS1, 4, 4), (2**29, 5, CS1, 4, 4), (2**29 + 1, 5, CS1, 4, 4), (NONE, 5, CS1, 80, 80), served=NONE)
    sets = [B + DATA_AT, 65536, 0, 1, 0, 0, 0, 0] + [B + DATA_AT, 65536, 1, 1, 0, 0, 0]
    yield Told(mixed, (0, 5, CS1, At(8197), At(8197)), (1, 5, CS1, 4, 4), sets=sets)
    two = rom_row(2) + rom_row(12)
    yield Told(mixed, (0, 5, CS1, At(8197), At(8197)), (1, 8192, NOT_GIVEN, 77, 4), roms=two[:-1])
    first_alone = (1, 8192, NOT_GIVEN, 77, 77), (1, 5, CS1, At(8197), At(8197))
    yield Told(mixed, (0, 5, CS1, At(8197), At(8197)), *first_alone, roms=two[:ROM_WORDS], sets={10: 0})
    for first in (2, 2**32 // ROM_WORDS - 1, 2**32 // ROM_WORDS, NONE):
        yield Told(mixed, (1, 5, CS1, At(8197), 4), sets={10: first})
        yield Told(mixed, (1, 5, CS1, At(8197), 74), sets={10: first, 11: 0})
        yield Told(mixed, (0, 5, CS1, 4, 4), (1, 5, CS1, 4, At(5)), sets={2: first})
    for kind, old, new in ((33, At(8197), 75), (34, At(8197), 4), (NONE, At(8197), 4)):
        yield Told(mixed, (1, 5, CS1, old, new), roms={ROM_WORDS: kind})
        yield Told(no_pins, (1, 5, CS1, 70, 4 if new == 4 else 70), (0, 5, CS1, 70, 70), roms={ROM_WORDS: kind})
    yield Told(no_pins, (1, 5, CS1, 70, 70), sets={11: 0})


def own_refusals():
    """72 to 79, 81, 2 and 82 of the named set, beside a set 0 that has none of them or others."""
    mixed = yard([[2], [12]])
    for count in (2, 255, NONE):
        # of several ROMs the first row is needed alone
        yield Told(mixed, (1, 5, CS1, At(8197), 72), sets={11: count})
    yield Told(yard([[2], [12]], yard_pins(x1=5, x2=15)), (1, 5, CS1, At(8197), 73), sets={11: 2})
    yield Told(yard([[2], [12]], yard_pins(x1=15, x2=5)), (1, 5, CS1, At(8197), 73), sets={11: 2})
    # X1 raises bit 14, which A14's pin shows, and X2 bit 15, which no pin does: OE and CE stand on 15
    several = (1, 5, X1, At(5), At(16389)), (1, 5, X2, At(5), At(5)), (1, 8192, NOT_GIVEN, 77, At(8192)), (0, 5, X1, At(5), At(5))
    yield Told(yard([[2], [12, 2]], yard_pins(x1=15, x2=15)), *several)
    yield Told(yard([[12, 12], [12]], yard_pins(x1=15, x2=15)), (0, 5, X1, At(16389), At(16389)), (1, 5, X1, At(16389), At(5)))
    yield Told(yard([[12], [2]], yard_pins(cs1=255)), (1, 5, CS1, At(5), 76), (1, 8192, CS1, At(8192), 76))
    yield Told(yard([[12], [33]], yard_pins(cs1=255)), (1, 5, CS1, At(5), 75))
    yield Told(yard([[2], [26]]), (1, 2048, NOT_GIVEN, At(2048), 77), (1, 5, NOT_GIVEN, At(5), 78))
    yield Told(yard([[2], [26]], size=4), (1, 5, NOT_GIVEN, 81, 78))
    ends = (1, 8191, NOT_GIVEN, At(8191), At(8191))
    yield Told(yard([[2], [12]], size=8192, end=8000), (1, 8192, NOT_GIVEN, 77, 81), (1, 5, CS1, 81, At(5)), (1, 8191, NOT_GIVEN, 2, 2))
    yield Told(yard([[2], [12]], size=8192), ends, (1, 8192, NOT_GIVEN, 77, 81), (1, 5, CS1, 81, At(5)))
    yield Told(yard([[2], [12]], end=8192), ends, (1, 8192, NOT_GIVEN, 77, 2), (1, 5, CS1, 2, At(5)))
    yield Told(mixed, (1, 0, NOT_GIVEN, 2, 2), (0, 5, CS1, At(8197), At(8197)), sets={8: B - 1})
    yield Told(mixed, (1, 5, CS1, 2, 2), (0, 5, CS1, At(8197), At(8197)), sets={8: NONE})
    yield Told(mixed, (1, 8192, NOT_GIVEN, 77, At(8192)), (1, 5, CS1, At(8197), At(5)), count=NONE - 1)
    yield Told(mixed, (1, 8192, NOT_GIVEN, 77, 82), (1, 5, CS1, 82, 82), (1, 32768, CS1, 77, 77), count=NONE)
    yield Told(yard([[2], [12]], size=8192, end=8000), (1, 8192, NOT_GIVEN, 77, 81), (1, 8191, NOT_GIVEN, 2, 2), count=NONE)
    no_data = yard([[2], [12]], yard_pins(data=[7, 6, 5, 4, 3, 2, 1, 8]), end=8192)
    yield Told(no_data, (1, 5, CS1, 2, 79), (1, 8192, NOT_GIVEN, 77, 2), (1, 32768, CS1, 77, 77))
    yield Told(no_data, (1, 5, CS1, 2, 82), count=NONE)


def own():
    yield from own_papers()
    yield from own_rows()
    yield from own_refusals()


# ---- how wide a string is (document 02, wish 3)

# strings and their widths, counted by hand
WIDTHS = (
    (b"A", 1), (b"\xc3\xa9", 1), (b"\xe2\x82\xac", 1), (b"\xf0\x9f\x98\x80", 1), (b"e\xcc\x81", 2), (b"", 0), (511 * b"\xc3\xa9" + b"a", 512),
)  # fmt: skip


class Shown:
    """A board whose opening is told: its number and, where it opens, build date, revision (number, offset, length, width) and names (the same, the
    reason its number)."""

    def __init__(self, image, lengths, number, date=None, revision=None, names=(), cuts=()):
        self.image, self.lengths, self.number, self.told, self.cuts = image, lengths, number, (date, revision, *names), cuts

    def run(self, out):
        o = opening(self.image, (B, C, 0), *self.lengths)
        assert o.number == self.number, (o.number, self.number)
        names = [(reason, offset, length, width) for *_, offset, length, reason, width in o.roms]
        if o.number == 0:
            assert (tuple(o.part(DATE)), tuple(o.part(REVISION)), *names) == self.told, (o.words, o.roms, self.told)
        out.board(self.image, (B, C, 0), *self.lengths, [Call("size", 0), Call("same", 0, 0)], self.cuts, o)


class Asked:
    """Calls other than reads, each with its reply as worked out by hand, on the report of a board with these rows in place of its own."""

    def __init__(self, given, sets, roms, asked):
        self.given, self.sets, self.roms, self.asked = given, sets, roms, asked

    def run(self, out):
        image, *lengths = self.given
        lent = lent_of(opening(image, (B, C, 0), *lengths), (B, C, 0), *lengths)
        lent.sets, lent.roms, lent.served = self.sets, self.roms, len(self.sets) // SET_WORDS
        for call, told in self.asked:
            assert call.answer(lent, image) == told, (vars(call), call.answer(lent, image), told)
        out.lent(image, lent, [call for call, _ in self.asked])


def labelled(texts):
    """A board of one set, of which each ROM is named by one of the texts, which stand in the image one behind the other; the first is the build
    date too, and the last the revision. And where each starts."""
    at = list(accumulate(map(len, texts), initial=END))[:-1]
    image = bytearray(walk_image((0, 6, 1, 0), [Set([Rom(name=B + start) for start in at])], end=END) + b"".join(texts))
    image[12:16], image[24:28] = struct.pack("<I", B + at[0]), struct.pack("<I", B + at[-1])
    return bytes(image), at


def shown_widths():
    """Names, build date and revision; each chunk of the last text ends with the image."""
    image, at = labelled([text + b"\0" for text, _ in WIDTHS])
    told = [(0, start, len(text), width) for start, (text, width) in zip(at, WIDTHS)]
    n, m = words(1, len(WIDTHS))
    for more in (0, 1, 7, 8):
        yield Shown(image, (n, m + more), 0, told[0], told[-1], told, "all" if more == 0 else [len(image) - 1])
    for less in (1, 7, 8, m):
        yield Shown(image, (n, m - less), 45)
    yield Shown(image, (n - 1, m), 44)
    # the first name's chunk ends with the image, so that of the others no chunk is whole
    ended = 2, 0, 0, 0
    cut = image[: END + 64]
    yield Shown(cut, (n, m), 0, told[0], ended, [told[0]] + [ended] * (len(WIDTHS) - 1))
    yield Shown(cut[:-1], (n, m), 0, ended, ended, [ended] * len(WIDTHS))
    # a name cut off in its chunk, one that is not UTF-8, and ones without a NUL
    for text, number in (b"short\0".ljust(63), 2), (b"\xc0\x80\0".ljust(64), 21), (64 * b"\xff", 2), (1024 * b"w", 20):
        told = number, 0, 0, 0
        yield Shown(labelled([text])[0], words(1, 1), 0, told, told, [told])


def width_rows():
    """One ROM and 7 words, or 8; no ROM and no words; and calls on such rows."""
    image, (at,) = labelled([b"jib\0".ljust(64)])
    told = 0, at, 3, 3
    yield Shown(image, (SET_WORDS, NARROW), 45)
    yield Shown(image, (SET_WORDS, ROM_WORDS), 0, told, told, [told])
    yield Shown(walk_image((0, 4, 0, 0), [Set()], end=END), (SET_WORDS, 0), 0, (3, 0, 0, 0), (3, 0, 0, 0))
    yield Shown(walk_image((0, 4, 0, 0), [], end=END), (0, 0), 0, (3, 0, 0, 0), (3, 0, 0, 0))
    row, set_row = rom_row(2), [B + DATA_AT, 65536, 0, 1, 0, 0, 0, 0]
    twice = set_row + [B + DATA_AT, 65536, 1, 1, 0, 0, 0, 0]
    # row 0 without its width, whole, and with another width: of the M1 board's address 5 mangling gives 8197
    for roms, mangled, yes in ((row[:NARROW], (4, 0), (4, 0)), (row, (0, 8197), (0, 1)), (row[:NARROW] + [NONE], (0, 8197), (0, 1))):
        asked = (Call("mangle", 0, 5, CS1), mangled), (Call("same", 0, 0), yes), (Call("size", 0), (0, 65536))
        yield Asked(yard([[2]]), set_row, roms, asked)
        yield Told(yard([[2]]), (0, 5, CS1, *[4 if mangled[0] else At(8197)] * 2), roms=roms)
    # row 1, which mangling does not need
    for roms, yes in ((row[:NARROW], (4, 0)), (row, (0, 1)), (row[:NARROW] + [1], (0, 1))):
        yield Asked(yard([[2]]), twice, row + roms, ((Call("mangle", 0, 5, CS1), (0, 8197)), (Call("same", 0, 1), yes), (Call("same", 1, 0), yes)))


def unmoved_by_widths():
    """Boards as opened, with other widths in their rows."""
    given, lengths = (B, C, 0), words(2, 3)
    for image in (small_board((0, 6, 9, 0), 4, B, 1), boards.old):
        calls = [*small_reads(), *calls_on(range(2)), *(Call("mangle", 0, a, CS1) for a in (0, 5, 8192)), Call("demangle", 0, 5)]
        yield OtherWidths(image, lent_of(opening(image, given, *lengths), given, *lengths), calls)


def widths():
    yield from shown_widths()
    yield from width_rows()
    yield from unmoved_by_widths()


GROUPS = [
    ("counts and strides", counts),
    ("config and overrides", pointers),
    ("refusals of the walk", refusals),
    ("names", names),
    ("settings, header, metadata", settings),
    ("bench cases", bench),
    ("small boards cut at every length", small),
    ("rows altered at random", altered),
    ("reads by the set's own ROMs", own),
    ("widths", widths),
]
