#!/usr/bin/env python3
"""Makes the vectors of crates/vectors, and tests/data/runtime.txt, from the models beside this file.

    python3 tests/model/make.py            writes them
    python3 tests/model/make.py --check    says whether the files are what it makes

A line of stdin: a letter for the kind, then numbers of eight hexadecimal digits, then bytes in hexadecimal. stdout has its answer, decimal.
    r RAM-base record        the runtime record: number, and the words of include/onerom.h where it is accepted
    s base pointer image     a string: number, offset, length, width
    S base pointer image     a string by the call for C and Rust
    h base offset image      the header
    e base pointer major minor patch build image    extra info
    m base pointer image     metadata
    p base pointer image     pins
    d pins-number byte data-pins                    demangling: number, value
    g pins-number served set-words rom-words first count type address levels pins    mangling: number, value
    G the same without levels                       all 32 levels, CS1 changing fastest
No line stands twice. tests/data/*-vectors.jsonl, mangle-vectors.txt and the strings of width-vectors.xz are answers of another reader of the
documents, and tests/data/oracle-sample.txt of the Rust (docs/ORACLE.md); where one of them differs from the models, this script stops.
"""
import json, os, random, struct

import cases, files, given, mangle, oracle, records, runtime

TOP = os.path.join(os.path.dirname(os.path.abspath(__file__)), "..", "..")
B = 0x08000000


def filled(n, seed=7):
    return bytes((seed * i + 3) % 251 + 1 for i in range(n))


def string_cases():
    text = b"abcdefghijklmnopqrstuvwxyz" * 50
    # the NUL at each index around each chunk's edge, the image just long enough, a byte short, a byte longer
    for chunk in range(1, 17):
        for at in (64 * chunk - 2, 64 * chunk - 1, 64 * chunk):
            whole = text[:at] + b"\0" + text[at + 1 : 64 * (at // 64 + 1)]
            for n in (-1, 0, 1):
                yield (whole + b"zz")[: 64 * (at // 64 + 1) + n], B, B
    yield text[:1024], B, B
    yield text[:1023] + b"\0", B, B
    yield text[:1088], B, B
    yield b"A\0" + bytes(62), B, B
    yield b"A\0" + bytes(61), B, B
    yield b"\xc0\x80\0" + bytes(61), B, B
    # every lead, with one to four bytes after it at the edges of what may follow
    edges = (0x00, 0x7F, 0x80, 0x8F, 0x90, 0x9F, 0xA0, 0xBF, 0xC0, 0xFF)
    for lead in range(0x80, 0x100):
        for second in edges:
            for rest in (b"", b"\x80", b"\x80\x80", b"\xbf\xbf\x80", b"\x80\x7f"):
                if (lead * 31 + second * 7 + len(rest)) % 3 == 0:
                    yield (b"x" + bytes([lead, second]) + rest + b"\0").ljust(64, b"\xff"), B, B
    # an unfinished character before the NUL, and one that a chunk's edge divides
    for s in (b"\xe2\x82", b"\xf0\x9f\x92", b"\xc3", b"\xe2\x82\xac"):
        yield (s + b"\0").ljust(64, b"\0"), B, B
        for at in (61, 62, 63):
            yield (b"y" * at + s + b"\0").ljust(128, b"\0"), B, B
    # pointers
    image = filled(100) + b"\0" + filled(100)
    for pointer in (B - 1, B, B + 1, B + 36, B + 37, B + 100, B + 101, B + 137, B + 138, B + 200, B + 201, B + 202, 0, records.NONE):
        yield image, B, pointer
    # at the top of the address space
    for base in (2**32 - 64, 2**32 - 63, 2**32 - 128):
        for pointer in (base, base + 1, 2**32 - 64, 2**32 - 1):
            yield b"q" * 63 + b"\0" + b"q" * 64, base, pointer
    yield b"q" * 1024, 2**32 - 1024, 2**32 - 1024
    yield b"\xff" * 64, B, B
    yield b"\xff" * 1024, B, B
    yield b"", B, B
    yield b"\0" * 64, 0, 0


def chunked(text, before=b""):
    """An image of whole chunks from a string on, which its NUL ends; before it stand some bytes."""
    return before + (text + b"\0").ljust(64 * (len(text) // 64 + 1), b"\xff")


def told_strings():
    """Strings with their widths, counted by hand."""
    base, e, euro, smile = 4096, b"\xc3\xa9", b"\xe2\x82\xac", b"\xf0\x9f\x98\x80"
    for text, width in (*cases.WIDTHS, (255 * smile + euro, 256), (63 * b"A", 63), (61 * b"A" + e, 62), (63 * b"A" + e, 64)):
        yield chunked(text, b"xyz"), base, base + 3, [0, 3, len(text), width]
        if len(text) < 64:
            # cut off in its chunk
            yield chunked(text, b"xyz")[:-1], base, base + 3, [2, 0, 0, 0]
    for text in (b"\xc0\x80", 511 * e + b"\xc3", b"\x80", 60 * b"A" + smile[:3]):
        yield chunked(text, b"xyz"), base, base + 3, [21, 0, 0, 0]
    yield 512 * e, base, base, [20, 0, 0, 0]
    yield chunked(e, b"xyz"), base, base - 1, [3, 0, 0, 0]
    # the last chunk below 2^32, and an image that passes it
    yield chunked(e), 2**32 - 64, 2**32 - 64, [0, 0, 2, 1]
    yield chunked(e), 2**32 - 63, 2**32 - 63, [1, 0, 0, 0]


def header_bytes(**at):
    h = bytearray(b"SDRR" + struct.pack("<4HI", 0, 6, 1, 5, B + 100) + b"01234567" + struct.pack("<IHHH", B + 200, 5, 7, 133))
    h += bytes([0, 1, 2, 255, 0, 1, 0, 3, 128, 9]) + struct.pack("<II", B + 300, B + 400) + bytes([9, 8, 7, 6]) + struct.pack("<II", B + 500, 0)
    for k, v in at.items():
        i = int(k[1:])
        if k[0] == "b":
            h[i] = v
        elif k[0] == "h":
            h[i : i + 2] = struct.pack("<H", v)
        else:
            h[i : i + 4] = struct.pack("<I", v)
    return bytes(h)


def header_cases():
    yield header_bytes(), B, 0
    for at in range(4):
        yield header_bytes(**{"b%d" % at: 0x20}), B, 0
    for line in (0, 1, 4, 5, 6, 255, 256, 0x0500, 65535):
        for storage in (0, 7, 8, 256, 65535):
            yield header_bytes(h28=line, h30=storage), B, 0
    for version in ((0, 3, 9, 9), (0, 3, 65535, 65535), (0, 4, 0, 0), (0, 4, 0, 1), (0, 5, 0, 0), (0, 5, 1, 0), (0, 6, 0, 0), (0, 6, 65535, 65535),
                    (0, 7, 0, 0), (0, 7, 0, 1), (0, 7, 1, 0), (0, 8, 0, 0), (1, 0, 0, 0), (1, 3, 0, 0), (0, 0, 0, 0), (0, 1, 0, 0), (65535, 0, 0, 0)):
        yield header_bytes(h4=version[0], h6=version[1], h8=version[2], h10=version[3]), B, 0
        yield header_bytes(h4=version[0], h6=version[1], h8=version[2], h10=version[3], h28=6), B, 0
    for at in list(range(34, 43)) + [52, 55]:
        for v in (0, 1, 2, 255):
            yield header_bytes(**{"b%d" % at: v}), B, 0
    for at in (12, 24, 44, 48, 56):
        for v in (0, records.NONE, B - 1):
            yield header_bytes(**{"w%d" % at: v}), B, 0
    for n in (0, 1, 63, 64, 65):
        yield (header_bytes() + b"\xee")[:n], B, 0
    for offset in (0, 1, 16, 17, 512, records.NONE, 2**32 - B, 2**32 - B - 1):
        yield bytes(16) + header_bytes(), B, offset
    yield header_bytes(), 2**32 - 64, 0
    yield header_bytes(), 2**32 - 63, 0
    yield header_bytes(), 2**32 - 1, 1
    yield header_bytes(), 0, 0


def placed(record, size):
    """The record's image and pointers around it: below base, at the start, the last address that fits, one more, FFFFFFFF."""
    image = b"\xcc" * 3 + record.ljust(size, b"\x5a")
    for pointer in (B - 1, B, B + 3, B + 4, B + len(image), records.NONE, 0):
        yield image, B, pointer
    yield image[:-1], B, B + 3
    yield image + b"\0", B, B + 4
    yield record.ljust(size, b"\x5a"), 2**32 - size, 2**32 - size
    yield b"", B, B


def extra_cases():
    versions = ([0, 3, 9, 9], [0, 5, 65535, 65535], [0, 6, 0, 0], [0, 6, 9, 1], [0, 0, 0, 0])
    for port in (0, 1, 5, 6, 7, 255):
        for dfu in (0, 1, 200):
            for pio in (0, 1, 255):
                record = struct.pack("<IBBBBI", 0x20000100, dfu, port, 11, pio, 0x20000000 + pio)
                yield (record.ljust(256, b"\1"), B, B) + (versions[(port + dfu + pio) % 5],)
    for v in versions:
        for image, base, pointer in placed(struct.pack("<IBBBBI", records.NONE, 1, 2, 3, 4, records.NONE), 256):
            yield image, base, pointer, v


def metadata_cases():
    magic = b"ONEROM_METADATA\0"
    for version in (0, 1, 2, 256, 0x01000000, records.NONE):
        for count in (0, 1, 255):
            for pointer in (0, 1, records.NONE):
                yield (magic + struct.pack("<IBBBBI", version, count, 9, 9, 9, pointer)).ljust(256, b"\3"), B, B
    for at in range(16):
        bad = bytearray(magic)
        bad[at] ^= 0x20
        yield (bytes(bad) + struct.pack("<IBBBBI", 2, 1, 0, 0, 0, 0)).ljust(256, b"\3"), B, B
    yield from placed(magic + struct.pack("<IBBBBI", 1, 3, 0, 0, 0, B + 600), 256)


def pins_cases():
    rng = random.Random(4)
    base = bytearray(rng.randrange(256) for _ in range(88))
    base[0:5] = bytes([0, 1, 2, 5, 4])
    for at in range(5):
        for v in (0, 5, 6, 255):
            p = bytearray(base)
            p[at] = v
            yield bytes(p), B, B
    for v in (0, 1, 2, 255):
        p = bytearray(base)
        p[63] = v
        yield bytes(p), B, B
        yield bytes(p) + b"\1", B, B + 1
    for at in range(5, 88):
        p = bytearray(base)
        p[63] = 1
        p[at] ^= 0xA5
        yield bytes(p), B, B
    yield from placed(bytes(base), 88)


def line(kind, *parts):
    return " ".join([kind] + [p.hex() if isinstance(p, bytes) else "%08x" % p for p in parts])


def string_answer(image, base, pointer):
    """By the call for C and Rust. The width is also the number of bytes that begin a character, and no character has more than four."""
    number, offset, length, width = records.string_call(image, base, pointer)
    assert width == sum(not 0x80 <= b <= 0xBF for b in image[offset : offset + length]) and width <= length <= 4 * width
    return [number, offset, length, width]


def strings():
    """kind, what is given, the answer"""
    for image, base, pointer in string_cases():
        yield "s", (base, pointer, image), records.string(image, base, pointer)
    for image, base, pointer, told in told_strings():
        assert string_answer(image, base, pointer) == told, (image, told)
        yield "S", (base, pointer, image), told
    for text in open(os.path.join(TOP, "tests/data/strings-vectors.jsonl")):
        v = json.loads(text)
        image, base, pointer = bytes.fromhex(v["image"]), v["base"], v["pointer"]
        answer = string_answer(image, base, pointer)
        assert [v["number"], v["offset"], v["length"], v["points"]] == answer, v
        yield "S", (base, pointer, image), answer
    for image, base, pointer, told in given.width_strings():
        answer = string_answer(image, base, pointer)
        assert answer == told, (image.hex(), base, pointer, told, answer)
        yield "S", (base, pointer, image), answer


def mangles():
    """kind, what is given, the answer"""
    for text in open(os.path.join(TOP, "tests/data/mangle-vectors.txt")):
        parts = text.split()
        kind, numbers, pins, reply = parts[0], [int(n, 16) for n in parts[1:-3]], bytes.fromhex(parts[-3]), tuple(map(int, parts[-2:]))
        call = mangle.widened(kind, (*numbers, pins))
        assert mangle.answer(kind, call) == reply, text
        yield kind, call, reply
    for kind, call, reply in (*mangle.bench_cases(), *mangle.width_cases()):
        assert mangle.answer(kind, call) == reply, call
        yield kind, call, reply
    for call in mangle.all_levels():
        answers = []
        for i in range(32):
            levels = sum((i >> k & 1) << 4 * k for k in range(5))
            answers += mangle.answer("g", (*call[:-1], levels, call[-1]))
        yield "G", call, answers


def main():
    out = []
    runtimes, shown = runtime.cases(os.path.join(TOP, "tests/data/runtime-vectors.jsonl"))
    for s, base in runtimes:
        out.append((line("r", base, s), runtime.words(s, base)))
    out += [(line(kind, *parts), answer) for kind, parts, answer in strings()]
    for image, base, offset in header_cases():
        out.append((line("h", base, offset, image), records.header(image, base, offset)))
    for image, base, pointer, version in extra_cases():
        out.append((line("e", base, pointer, *version, image), records.extra_info(image, base, pointer, version)))
    for image, base, pointer in metadata_cases():
        out.append((line("m", base, pointer, image), records.metadata(image, base, pointer)))
    for image, base, pointer in pins_cases():
        out.append((line("p", base, pointer, image), records.pins(image, base, pointer)))
    out += [(line(kind, *parts), answer) for kind, parts, answer in (*mangles(), *oracle.records_and_mangles())]
    out = list({text: (text, answer) for text, answer in out}.values())
    stdin = "".join(text + "\n" for text, _ in out)
    assert len(stdin) <= 2097152, len(stdin)
    files.put("crates/vectors/stdin", stdin)
    files.put("crates/vectors/stdout", "".join(" ".join(map(str, answer)) + (" \n" if text[0] == "G" else "\n") for text, answer in out))
    files.put("tests/data/runtime.txt", "".join("%s|%s\n" % (s.hex(), "|".join(runtime.text(s))) for s in shown))
    print(len(out), "vectors;", len(shown), "for the program runtime")


if __name__ == "__main__":
    main()
