"""Document 01, "Runtime", read a second time, in Python."""
import json

from records import u16, u32

PROGRAM_BASE = 536870912


def groups(s):
    def reaches(end):
        return s[4] >= end and len(s) >= end

    flag = lambda at: int(s[at] != 0)
    out = [None] * 4
    if reaches(34) and (s[27] <= 31 or s[27] in (254, 255)):
        out[0] = [flag(24), flag(25), flag(26), s[27], u16(s, 28), u16(s, 30), u16(s, 32)]
    if reaches(36) and s[34] in (0, 1) and s[35] in (1, 2):
        out[1] = [s[34], s[35]]
    if reaches(39):
        out[2] = [flag(36), s[37], flag(38)]
    if reaches(57) and s[56] <= 3:
        out[3] = [s[39], s[56]]
    return out


def parse(s, ram_base):
    """The number, the head, the four groups."""
    if len(s) < 20:
        return 2, None, None
    if s[:4] != b"sdrr":
        return 60, None, None
    if s[4] < 20:
        return 61, None, None
    if ram_base + 8 > 2**32 - 1:
        return 62, None, None
    head = [s[5], s[6], s[7], u32(s, 8), ram_base + 8, u32(s, 12), u32(s, 16)]
    return 0, head, groups(s)


def words(s, ram_base):
    number, head, gs = parse(s, ram_base)
    if number:
        return [number]
    out = [0] + head
    for g, width in zip(gs, (7, 2, 3, 2)):
        out += [0] * (width + 1) if g is None else [1] + g
    return out


def text(s):
    number, head, gs = parse(s[:64], PROGRAM_BASE)
    if number:
        return ["refused %d" % number]
    lines = ["head " + " ".join(map(str, head))]
    for g, name in zip(gs, ("0.6.0", "0.6.2", "0.6.3", "0.6.7")):
        lines.append(name + (" absent" if g is None else "".join(" %d" % x for x in g)))
    return lines


def record(size=57, length=64, **at):
    """A record in which every group is present, with some bytes changed: b27=32 sets byte 27."""
    s = bytearray((7 * i + 3) % 251 for i in range(length))
    put = {0: 0x73, 1: 0x64, 2: 0x72, 3: 0x72, 4: size, 24: 1, 25: 0, 26: 2, 27: 11, 34: 1, 35: 2, 36: 0, 38: 9, 56: 3}
    put.update((int(k[1:]), v) for k, v in at.items())
    for k, v in put.items():
        if k < length:
            s[k] = v
    return bytes(s)


def vectors():
    for size in (0, 19, 20, 33, 34, 35, 36, 38, 39, 56, 57, 255):
        for length in range(65):
            yield record(size, length), PROGRAM_BASE
    for b in (0, 1, 30, 31, 32, 33, 127, 128, 253, 254, 255):
        yield record(b27=b), PROGRAM_BASE
    for b in (0, 1, 2, 3, 254, 255):
        for at in (34, 35):
            yield record(**{"b%d" % at: b}), PROGRAM_BASE
    for b in (0, 1, 2, 3, 4, 5, 127, 128, 255):
        yield record(b56=b), PROGRAM_BASE
    # each flag at 0, 1, 2, 128, 255; counting, data pins and peri keep the byte
    for at in (7, 24, 25, 26, 36, 37, 38, 39):
        for b in (0, 1, 2, 128, 255):
            yield record(**{"b%d" % at: b}), PROGRAM_BASE
    # one group falls, the others stay
    for fall in ({"b27": 32}, {"b34": 2}, {"b35": 0}, {"b35": 3}, {"b56": 4}, {"b27": 100, "b34": 9}, {"b27": 253, "b56": 255}):
        yield record(**fall), PROGRAM_BASE
    # numbers at their widest, bytes 40 to 55 skipped
    yield record(**{"b%d" % at: 255 for at in range(5, 24)}), PROGRAM_BASE
    yield record(**{"b%d" % at: 255 for at in range(28, 34)}), PROGRAM_BASE
    yield record(**{"b%d" % at: 255 for at in range(40, 56)}), PROGRAM_BASE
    # magic, byte by byte; the order 2, 60, 61, 62
    for at in range(4):
        for d in (1, 255):
            s = bytearray(record())
            s[at] = (s[at] + d) % 256
            yield bytes(s), PROGRAM_BASE
    for base in (0, 1, 2**31, 2**32 - 10, 2**32 - 9, 2**32 - 8, 2**32 - 7, 2**32 - 1):
        yield record(), base
        yield record(19), base
        yield record(57, 19), base
        yield record(57, 20), base
        yield b"Sdrr" + record()[4:], base
    yield record(255, 255), PROGRAM_BASE
    yield record(57, 57), PROGRAM_BASE
    yield record(57, 56), PROGRAM_BASE


def cases(known_file):
    """All vectors; and the records for the program, a sample of every kind. known_file: answers of another reader, which must agree."""
    every = list(vectors())
    known = []
    for line in open(known_file):
        v = json.loads(line)
        s, base = bytes.fromhex(v["record"]), v["ram_base"]
        number, f = v["reply"]
        if number:
            said = [number]
        else:
            said = [0] + [f[k] for k in ("image", "set", "counting", "count", "count_address", "table", "table_size")]
            for k, width in (("v060", 7), ("v062", 2), ("v063", 3), ("v067", 2)):
                said += [0] * (width + 1) if f[k] is None else [1] + [int(x) for x in f[k]]
        assert said == words(s, base), (v, words(s, base))
        if "output" in v:
            assert v["output"] == "".join(x + "\n" for x in text(s)), v
        known.append((s, base))
    shown = [s for s, base in every + known if base == PROGRAM_BASE][::13] + [s for s, base in known if base == PROGRAM_BASE]
    return every + known, shown
