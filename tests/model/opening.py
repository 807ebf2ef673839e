"""Document 01, "ROM sets and ROM infos", "Report", "ROM data", "Lent rows" and "Same set", and of document 02 the read of wish 1, the widths of
wish 3 and the counts of wish 4, read a second time, in Python."""
import mangle, records
from records import NONE, u32
from rows import ROM_WORDS, SET_WORDS

TOP = 2**32
NOT_LOOKED_FOR = 256
# jobs 0 to 7, and their counts at the opening
JOBS = 8
ALL_ZERO = [0] * JOBS
# the report as words: where each item starts, and how long it is
FIELDS, DATE, REVISION, EXTRA, METADATA, SETS, PINS = (0, 27), (27, 4), (31, 4), (35, 7), (42, 1), (43, 3), (46, 78)
NO_REPORT = [0] * 35 + [0, 0, 0, 0, 0, 2, NONE] + [NOT_LOOKED_FOR] + [0] * 81


class Image:
    """An image whose reads are noted: how many were tried, and what each successful one took. Reads under `aside` are not shown."""

    def __init__(self, data):
        self.data, self.tried, self.shown, self.spans, self.aside = data, 0, 0, [], False

    def __len__(self):
        return len(self.data)

    def read(self, base, a, n):
        self.tried += 1
        self.shown += not self.aside
        if base <= a < TOP and a + n <= base + len(self.data):
            if not self.aside:
                self.spans.append((a - base, n))
            return self.data[a - base : a - base + n]
        return None

    def reach(self):
        return max([at + n for at, n in self.spans], default=0)


def name_of(image, base, pointer):
    """offset, length, reason, width of a ROM's name; no pointer read is None"""
    if pointer is None or pointer < base or pointer == NONE:
        return [0, 0, 1, 0]
    number, offset, length, width = records.string(image, base, pointer)
    return [offset, length, number, width]


def rom_infos(image, base, table, count, filenames, names):
    """number, and the ROMs as type and three states; the name pointers go into names"""
    if count and table < base:
        return 3, []
    roms = []
    for i in range(count):
        entry = image.read(base, table + 4 * i, 4)
        if entry is None:
            return 2, []
        info = image.read(base, u32(entry, 0), 8 if filenames else 4)
        if info is None:
            return 2, []
        if info[0] > 33:
            return 42, []
        if max(info[1:4]) > 2:
            return 43, []
        names.append(u32(info, 4) if filenames else None)
        roms.append(list(info[:4]))
    return 0, roms


def walk(image, base, version, logging, count, pointer):
    """number, set rows, ROM rows; the names that a refused walk passed are read aside"""
    filenames = version >= [0, 5, 1, 0] or logging
    names, sets, roms = [], [], []

    def refused(number):
        image.aside = True
        for p in names:
            name_of(image, base, p)
        image.aside = False
        return number, [], []

    if count == 0:
        return 0, [], []
    if pointer < base:
        return 3, [], []
    at = pointer
    for _ in range(count):
        s = image.read(base, at, 64)
        if s is None:
            return refused(2)
        if s[13] > 2:
            return refused(40)
        if s[14] > 2:
            return refused(41)
        extra = [0, 0]
        if s[15] == 1:
            for k in (0, 1):
                p = u32(s, 16 + 4 * k)
                if p not in (0, NONE):
                    if image.read(base, p, 64) is None:
                        return refused(2)
                    extra[k] = p
        number, found = rom_infos(image, base, u32(s, 8), s[12], filenames, names)
        if number:
            return refused(number)
        sets.append([u32(s, 0), u32(s, 4), len(roms), s[12], s[13], s[14]] + extra)
        roms += found
        at += 64 if s[15] == 1 and version >= [0, 6, 0, 0] else 16
    return 0, sets, [rom + name_of(image, base, p) for rom, p in zip(roms, names)]


class Opened:
    """number; the report as words; set rows and ROM rows; the image with its reads noted"""

    def __init__(self, number, image, words=NO_REPORT, sets=(), roms=()):
        self.number, self.image, self.words, self.sets, self.roms = number, image, list(words), sets, roms

    def part(self, item):
        return self.words[item[0] : item[0] + item[1]]

    def line(self):
        return self.words[12]

    def served(self):
        return self.words[SETS[0] + 2]


def opening(data, settings, set_words, rom_words):
    flash, cs0, offset = settings
    image = Image(data)
    if max(flash, cs0) + len(data) > TOP:
        return Opened(1, image)
    h = records.header(image, flash, offset)
    if h[0]:
        return Opened(h[0], image)
    date, revision, count, pointer, pins, extra = h[28:]
    version, line, logging = h[1:5], h[13], h[21]
    base = cs0 if line == 5 else flash
    words = h[1:28] + records.string(image, base, date) + records.string(image, base, revision) + records.extra_info(image, base, extra, version)
    mark = NOT_LOOKED_FOR
    if version >= [0, 5, 0, 0]:
        mark, count, pointer = records.metadata(image, base, pointer)
    if mark == 2:
        number, sets, roms = 2, [], []
    else:
        number, sets, roms = walk(image, base, version, logging, count, pointer)
    words += [mark, number, count, 0 if number else count] + records.pins(image, base, pins)
    if number == 0 and set_words < SET_WORDS * len(sets):
        return Opened(44, image)
    if number == 0 and rom_words < ROM_WORDS * len(roms):
        return Opened(45, image)
    return Opened(0, image, words, sets, roms)


def without_widths(words):
    """A report's words as document 01 has them: of the two strings number, offset and length."""
    return [*words[: REVISION[0] - 1], *words[REVISION[0] : EXTRA[0] - 1], *words[EXTRA[0] :]]


def pattern(n):
    """What a lent buffer of n words holds before a call."""
    return [2779096485 + i % 65536 for i in range(n)]


def byte_pattern(n):
    return bytes(90 + i % 7 for i in range(n))


def left(rows, n):
    """What a lent buffer of n words holds after an opening with these rows."""
    flat = [w for row in rows for w in row]
    return flat + pattern(n)[len(flat) :]


class Lent:
    """What later calls look at: the settings' bases, the line, the pins item (78 words as in the report), the sets served, the rows in words"""

    def __init__(self, flash, cs0, line, pins, served, sets, roms):
        self.flash, self.cs0, self.line, self.pins, self.served, self.sets, self.roms = flash, cs0, line, pins, served, sets, roms

    def set_row(self, i):
        return self.sets[SET_WORDS * i : SET_WORDS * (i + 1)] if SET_WORDS * (i + 1) <= len(self.sets) else None

    def types(self, row):
        """The types of the ROM rows of a set, or None where a row is lacking or a type is above 33."""
        first, count = row[2], row[3]
        if count and ROM_WORDS * (first + count) > len(self.roms):
            return None
        kinds = [self.roms[ROM_WORDS * r] for r in range(first, first + count)]
        return kinds if all(k <= 33 for k in kinds) else None

    def governs(self, i):
        """The ROM count and first type of a set, by which mangling goes; None where a row of these is lacking or that type is above 33."""
        row = self.set_row(i)
        if row is None:
            return None
        if row[3] == 0:
            return 0, 0
        first = ROM_WORDS * row[2]
        if first + ROM_WORDS > len(self.roms) or self.roms[first] > 33:
            return None
        return row[3], self.roms[first]

    def mangle_by(self, governing, address, levels):
        p = self.pins
        control = dict(zip(("cs1", "cs2", "cs3", "x1", "x2", "ce", "oe"), p[31:34] + p[37:41]))
        return mangle.core(p[6], p[15:31], control, *governing, address, [level == 2 for level in levels])

    def mangle(self, address, levels):
        if self.pins[0]:
            return 70, 0
        if self.served == 0:
            return 71, 0
        governing = self.governs(0)
        if governing is None:
            return 4, 0
        return self.mangle_by(governing, address, levels)

    def mangle_own(self, i, address, levels):
        """Mangling by the named set (document 02, wish 1): 80, the whole 4, 70, and from there on as by set 0."""
        if i >= self.served:
            return 80, 0
        governing = self.governs(i)
        if governing is None:
            return 4, 0
        if self.pins[0]:
            return 70, 0
        return self.mangle_by(governing, address, levels)

    def demangle(self, byte):
        return mangle.demangle(self.pins[0], self.pins[7:15], byte)

    def size(self, i):
        if i >= self.served:
            return 80, 0
        row = self.set_row(i)
        return (4, 0) if row is None else (0, row[1])

    def same(self, a, b):
        if max(a, b) >= self.served:
            return 80, 0
        rows = [self.set_row(a), self.set_row(b)]
        if None in rows:
            return 4, 0
        kinds = [self.types(row) for row in rows]
        if None in kinds:
            return 4, 0
        compared = [(row[1], row[3], row[4], k) for row, k in zip(rows, kinds)]
        return 0, int(compared[0] == compared[1])

    def data(self, image, i, offset, n):
        """number, bytes: ROM data without the count"""
        if i >= self.served:
            return 80, b""
        row = self.set_row(i)
        if row is None:
            return 4, b""
        if offset + n > row[1]:
            return 81, b""
        bs = records.read(image, self.cs0 if self.line == 5 else self.flash, row[0] + offset, n)
        return (2, b"") if bs is None else (0, bytes(bs))

    def read(self, image, kind, i, address, levels, n, job, counts):
        """number, bytes, the eight counts afterwards: 1, 83, then as by the job's own count, at which alone 82 looks (document 02, wish 4)"""
        if max(self.flash, self.cs0) + len(image) > TOP:
            return 1, b"", counts
        if job >= JOBS:
            return 83, b"", counts
        number, at = 0, address
        if kind in ("logical", "logical raw"):
            number, at = self.mangle(address, levels)
        elif kind == "own":
            number, at = self.mangle_own(i, address, levels)
        if number:
            return number, b"", counts
        number, bs = self.data(image, i, at, n)
        if number == 0 and counts[job] + n > NONE:
            number = 82
        if number == 0 and kind in ("raw", "logical", "own"):
            number, value = self.demangle(bs[0])
            bs = bytes([value])
        if number:
            return number, b"", counts
        return 0, bs, [*counts[:job], counts[job] + n, *counts[job + 1 :]]


def lent_of(opened, settings, set_words, rom_words):
    """What the calls after an opening are given: the report and rows as it left them."""
    flash, cs0, _ = settings
    return Lent(flash, cs0, opened.line(), opened.part(PINS), opened.served(), left(opened.sets, set_words), left(opened.roms, rom_words))


KINDS = ("mangle", "demangle", "size", "same", "data", "raw", "raw raw", "logical", "logical raw", "own")


class Call:
    """Levels are five of 0 (not given), 1 (low), 2 (high). A call by itself has the count of its job before it; the other jobs' are full."""

    def __init__(self, kind, i=0, address=0, levels=(0, 0, 0, 0, 0), n=1, count=0):
        self.kind, self.set, self.address, self.levels, self.n, self.count = kind, i, address, tuple(levels), n, count

    def reads(self):
        return KINDS.index(self.kind) >= 4

    def on(self, lent, image, job, counts):
        """The answer and the eight counts afterwards. An answer is as in the vectors: number and value; of a read number, bytes and its job's count,
        0 of a job that has none."""
        if self.kind == "mangle":
            return lent.mangle(self.address, self.levels), counts
        if self.kind == "demangle":
            return lent.demangle(self.address), counts
        if self.kind == "size":
            return lent.size(self.set), counts
        if self.kind == "same":
            return lent.same(self.set, self.address), counts
        number, bs, after = lent.read(image, self.kind, self.set, self.address, self.levels, self.n, job, counts)
        return (number, bs, after[job] if job < JOBS else 0), after

    def answer(self, lent, image, job=0):
        """The answer to the call by itself, whichever of the jobs 0 to 7 it is for."""
        counts = [NONE] * JOBS
        counts[job] = self.count
        return self.on(lent, image, job, counts)[0]


def old_and_own(call, lent, image):
    """Wish 1, of a read of set 0: the old read accepts where the new one does, with the same byte and count, and so refuse both; but old 71 is
    new 80, and of old 70 come first the 80 and the 4 that stand before it now."""
    old = Call("logical", call.set, call.address, call.levels, 1, call.count).answer(lent, image)
    number = old[0]
    if number in (70, 71):
        number = 80 if lent.served == 0 else 4 if lent.governs(0) is None else 70
    assert call.answer(lent, image) == (number, *old[1:]), (vars(call), old)
