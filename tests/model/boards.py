#!/usr/bin/env python3
"""The images of the two boards of crates/fw_parser/specs/Examples.antt, field by field.

    python3 tests/model/boards.py --check    says whether Examples.antt holds these images; it writes nothing
"""
import os, re, struct

TOP = os.path.join(os.path.dirname(os.path.abspath(__file__)), "..", "..")


def header(version, line, storage, freq, flags, count, counting, date, rev, sets, pins, extra):
    h = b"SDRR" + struct.pack("<4HI", *version, date) + b"00abcdef" + struct.pack("<IHHH", rev, line, storage, freq)
    h += bytes(flags) + bytes([count, counting, 0]) + struct.pack("<II", sets, pins) + bytes([1, 2, 3, 4]) + struct.pack("<II", extra, 0xFFFFFFFF)
    assert len(h) == 64
    return h


def pins(rom_pins, data, addr, cs, x, ce, oe):
    p = bytearray(88)
    p[0:5] = bytes([1, 2, 2, 3, 4])
    p[5] = rom_pins
    p[8:16] = bytes(data)
    p[16:32] = bytes(addr)
    p[36:39] = bytes(cs)
    p[42:46] = bytes([*x, ce, oe])
    return bytes(p)


def place(size, parts):
    image = bytearray(size)
    for at, part in parts:
        image[at : at + len(part)] = part
    return bytes(image)


B = 0x08000000
# 0.4.2 on an STM32: the header at offset 0; strings share a chunk's tail; extra info overlaps what follows it
old = place(488, [
    (0, header((0, 4, 2, 7), 1, 2, 84, [0, 1, 0, 0, 1, 0, 0], 1, 1, B + 64, B + 68, B + 320, B + 400, B + 64)),
    (64, b"May\0"),
    (68, b"24-d\0"),
    (320, struct.pack("<IIIBBBB", B + 0x100, 16384, B + 384, 1, 1, 2, 0)),
    (384, struct.pack("<I", B + 388)),
    (388, bytes([2, 0, 2, 2])),
    (400, pins(24, [7, 6, 5, 4, 3, 2, 1, 0], list(range(13)) + [255] * 3, [13, 255, 255], [255, 255], 255, 255)),
])
C = 0x10000000
# 0.6.1 on an Rp2350: metadata, two sets at stride 64 and 16, names
new = place(848, [
    (0, header((0, 6, 1, 0), 5, 7, 150, [1, 0, 0, 0, 1, 1, 0], 9, 0, C + 64, C + 70, C + 128, C + 760, C + 384)),
    (64, b"June!\0"),
    (70, b"fire-24\0"),
    (128, b"ONEROM_METADATA\0" + struct.pack("<IBxxxI", 1, 2, C + 640)),
    (384, struct.pack("<IBBBBI", 0x20001000, 1, 9, 12, 1, 0x20002000)),
    (640, struct.pack("<IIIBBBBII", C + 0x1000, 8192, C + 720, 1, 0, 2, 1, 0xFFFFFFFF, C + 64)),
    (704, struct.pack("<IIIBBBB", C + 0x3000, 65536, C + 724, 2, 2, 0, 0)),
    (720, struct.pack("<III", C + 732, C + 740, C + 732)),
    (732, bytes([2, 0, 2, 2]) + struct.pack("<I", C + 748)),
    (740, bytes([0, 0, 1, 2]) + struct.pack("<I", 0xFFFFFFFF)),
    (748, b"jib.bin\0"),
    (760, pins(24, [0, 1, 2, 3, 4, 5, 6, 7], [8, 9, 10, 11, 12, 13, 14, 15, 16, 17, 18, 255, 255, 255, 255, 255], [20, 19, 21], [22, 23], 255, 255)),
])


def main():
    text = open(os.path.join(TOP, "crates/fw_parser/specs/Examples.antt")).read()
    for name, image in (("old_image", old), ("new_image", new)):
        held = re.search(name + r" =\s+([0-9∷\s]+)\[\]", text).group(1)
        assert bytes(int(n) for n in re.findall("[0-9]+", held)) == image, name
    print("both images are as made here")


if __name__ == "__main__":
    main()
