"""Document 01, "Mangling" and "Lent rows", read a second time, in Python, with the Rust's tables."""
import json

import rows
from rows import NARROW, ROM_WORDS, SET_WORDS

NONE = 255
ONE_EACH = rows.words(1, 1)
# type: mask, control pins in order with their input bits, levels in order CS1, CS2, CS3 with the bits they raise
TYPES = {
    0: (0x7FF, (("cs1", 13), ("cs2", 11), ("cs3", 12)), (13, 12, 11)),
    1: (0xFFF, (("cs1", 13), ("cs2", 12)), (13, 12, None)),
    2: (0x1FFF, (("cs1", 13),), (13, None, None)),
    3: (0x3FFF, (("cs1", 16), ("cs2", 17), ("cs3", 14)), (None,) * 3),
    4: (0x7FFF, (("cs1", 16), ("cs2", 17)), (None,) * 3),
    5: (0xFFFF, (("cs1", 16), ("cs2", 17)), (None,) * 3),
    8: (0x7FF, (("oe", 13), ("ce", 11)), (13, 12, None)),
    9: (0xFFF, (("oe", 13), ("ce", 11)), (13, 12, None)),
    10: (0x1FFF, (("oe", 16), ("ce", 17)), (None,) * 3),
    11: (0x3FFF, (("oe", 16), ("ce", 17)), (None,) * 3),
    12: (0x7FFF, (("oe", 16), ("ce", 17)), (None,) * 3),
    13: (0xFFFF, (("oe", 16), ("ce", 17)), (None,) * 3),
    14: (0x1FFFF, (("cs1", 17),), (None,) * 3),
    26: (0x7FF, (("oe", 13), ("ce", 11)), (None,) * 3),
    27: (0x1FFF, (("oe", 16), ("ce", 17)), (None,) * 3),
    28: (0x7FFF, (("oe", 16), ("ce", 17)), (None,) * 3),
}
CONTROLS = ("cs1", "cs2", "cs3", "x1", "x2", "ce", "oe")


def base_zero(rom_pins, addr, control):
    least = min([NONE] + list(addr) + (list(control.values()) if rom_pins == 24 else []))
    down = lambda p: p if p == NONE else p - least
    return [down(p) for p in addr], {k: down(p) if rom_pins == 24 else p for k, p in control.items()}


def core(rom_pins, addr, control, count, kind, address, levels):
    """number, value; levels are five values, high where true"""
    addr, control = base_zero(rom_pins, addr, control)
    pins = [None] * 16
    for bit, p in enumerate(addr):
        if p < 16:
            pins[p] = bit
    if count > 1:
        x1, x2 = control["x1"], control["x2"]
        if x1 >= 16 or x2 >= 16:
            return 72, 0
        if pins[x1] is not None or pins[x2] is not None:
            return 73, 0
        pins[x1] = 14
        pins[x2] = 15
    if count == 0:
        return 74, 0
    if kind not in TYPES:
        return 75, 0
    mask, controls, raised = TYPES[kind]
    if any(control[name] >= 16 for name, bit in controls):
        return 76, 0
    for name, bit in controls:
        pins[control[name]] = bit
    if address > mask:
        return 77, 0
    if kind == 26:
        return 78, 0
    word = address
    for level, bit in zip(levels, raised + ((14, 15) if count > 1 else (None, None))):
        if level and bit is not None:
            word |= 1 << bit
    return 0, sum(1 << p for p, bit in enumerate(pins) if bit is not None and word >> bit & 1)


def mangle(pins_number, served, set_words, rom_words, first, count, kind, pins, address, levels):
    """set_words and rom_words are the rows' lengths in words; first and count are set 0's; kind its first ROM row's word.
    pins: ROM pins, eight data pins, sixteen address pins, CS1 to CS3, X1, X2, CE, OE, 32 bytes"""
    if pins_number:
        return 70, 0
    if served == 0:
        return 71, 0
    if set_words < SET_WORDS:
        return 4, 0
    if count and (ROM_WORDS * (first + 1) > rom_words or kind > 33):
        return 4, 0
    return core(pins[0], pins[9:25], dict(zip(CONTROLS, pins[25:32])), count, kind, address, levels)


def demangle(pins_number, data, byte):
    if pins_number:
        return 70, 0
    if any(p >= 8 for p in data):
        return 79, 0
    return 0, sum((byte >> p & 1) << i for i, p in enumerate(data))


def from_lent(path):
    """The mangle and demangle calls of another reader, on ROM rows of seven words, each with its answer."""
    for text in open(path):
        v = json.loads(text)
        p = v["pins"]
        q = p["pins"] or {}
        pins = [0] * 32
        if p["number"] == 0:
            pins = [q["rom_pins"]] + q["data"] + q["addr"] + [q[c] for c in CONTROLS]
        sets, roms = v["set_rows"], v["rom_rows"]
        first = sets[2] if len(sets) >= 8 else 0
        count = sets[3] if len(sets) >= 8 else 0
        kind = roms[NARROW * first] if NARROW * first < len(roms) else 0
        for c in v["calls"]:
            if c["kind"] == "mangle":
                levels = sum((2 if x is None else int(x)) << 4 * i for i, x in enumerate(c["levels"]))
                yield "g", (p["number"], v["served"], len(sets), len(roms), first, count, kind, c["address"], levels, bytes(pins)), tuple(c["reply"])
            elif c["kind"] == "demangle":
                yield "d", (p["number"], c["address"], bytes(pins[1:9])), tuple(c["reply"])


def widened(kind, given):
    """A call on ROM rows of seven words, as it is on rows of eight."""
    return given if kind == "d" else (*given[:3], rows.widened_length(given[3]), *given[4:])


def answer(kind, given):
    if kind == "d":
        number, byte, data = given
        return demangle(number, data, byte)
    number, served, set_words, rom_words, first, count, rom_type, address, levels, pins = given
    return mangle(number, served, set_words, rom_words, first, count, rom_type, pins, address, [levels >> 4 * i & 15 == 1 for i in range(5)])


BOARD24 = [24] + list(range(7, -1, -1)) + [8, 9, 10, 11, 12, 13, 14, 15, 16, 17, 18, 255, 255, 255, 255, 255] + [19, 20, 21, 22, 23, 20, 19]
BOARD28 = [28] + list(range(8)) + list(range(16)) + [3, 4, 5, 255, 255, 9, 8]
BOARD28X = [28] + list(range(8)) + list(range(13)) + [255, 255, 255] + [3, 4, 5, 13, 14, 9, 8]


def all_levels():
    """Boards on which each type is tried with all 32 levels: number, served, rows, first, count, type, address, pins."""
    for board in (BOARD24, BOARD28, BOARD28X):
        for kind in range(35):
            for count in (0, 1, 2):
                mask = TYPES[kind][0] if kind in TYPES else 0
                for address in (0, mask, mask + 1):
                    yield 0, 1, *ONE_EACH, 0, count, kind, address, bytes(board)
    for at in range(25, 32):
        for pin in (15, 16, 17, 255):
            for kind in (0, 3, 8, 14, 26):
                board = list(BOARD28)
                board[at] = pin
                yield 0, 1, *ONE_EACH, 0, 1, kind, 1, bytes(board)
                board = list(BOARD24)
                board[at] = min(255, pin + 8)
                yield 0, 1, *ONE_EACH, 0, 2, kind, 1, bytes(board)


def bench_cases():
    """Document 01's D1, D2 and M1 to M4, with the answers that it gives."""
    yield "d", (0, 1, bytes([7, 6, 5, 4, 3, 2, 1, 0])), (0, 128)
    yield "d", (0, 1, bytes([7, 6, 5, 8, 3, 2, 1, 0])), (79, 0)
    for up in (0, 8):
        pins = bytes([24] + [255] * 8 + [up + p for p in range(13)] + [255] * 3 + [up + 13] + [255] * 6)
        yield "g", (0, 1, *ONE_EACH, 0, 1, 2, 5, 0x22221, pins), (0, 8197)
        yield "g", (0, 1, *ONE_EACH, 0, 1, 2, 8192, 0x22221, pins), (77, 0)
    pins = bytes([24] + [255] * 8 + list(range(11)) + [255] * 5 + [13, 11, 12] + [255] * 4)
    yield "g", (0, 1, *ONE_EACH, 0, 1, 0, 0, 0x22212, pins), (0, 4096)


def width_cases():
    """Rows of M1's board that end early: a ROM row without its width is not lent whole (document 02, wish 3)."""
    pins = bytes([24] + [255] * 8 + list(range(13)) + [255] * 3 + [13] + [255] * 6)
    for first, words, reply in (0, 7, (4, 0)), (0, 8, (0, 8197)), (1, 15, (4, 0)), (1, 16, (0, 8197)), (2**29 - 1, 512, (4, 0)), (2**29, 512, (4, 0)):
        yield "g", (0, 1, SET_WORDS, words, first, 1, 2, 5, 0x22221, pins), reply
    # without ROMs none is needed
    yield "g", (0, 1, SET_WORDS, 7, 0, 0, 2, 5, 0x22221, pins), (74, 0)
