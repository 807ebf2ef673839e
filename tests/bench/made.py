"""Boards that are kept in no file: changes to the samples, and some made anew."""
import os
import struct

import make
from tools import TOP, put


def changed(*writes):
    """rp2350.img with bytes written at addresses: (what, offset from it, bytes)."""
    image = make.RP2350.image()
    for what, offset, data in writes:
        image.write(make.RP2350.at[what] + offset, data)
    return bytes(image.bytes)


def board_of(sets):
    r = make.RP2350
    return make.Board(r.base, r.version, r.line, r.storage, r.mhz, r.flags, r.counting, r.date, r.revision, r.extra, r.pins, sets)


def one_rom_sets(names, serves):
    return bytes(board_of([make.RomSet([make.Rom(n, make.ROM_2316)], 2048, s) for n, s in zip(names, serves)]).image().bytes)


def accented():
    """A board whose texts have characters of one byte to four. A combining mark is one by itself."""
    names = ["A", "\u00e9", "\u20ac", "\U0001f600", "e\u0301", "", "grand-voile \u00e0 corne.bin"]
    board = board_of([make.RomSet([make.Rom(name, make.ROM_2316)], 2048, 1) for name in names])
    board.date, board.revision = "12 f\u00e9vrier 2026", "\u20ac e\u0301 \U0001f600"
    return board


def uf2(data):
    """The bytes in a UF2 file's blocks of 512, 256 of them in each."""
    parts = [data[n : n + 256] for n in range(0, len(data), 256)]
    head = b"UF2\n" + struct.pack("<I", 0x9E5D5157)
    blocks = (
        head + struct.pack("<6I", 0, make.RP2350.base + 256 * n, len(part), n, len(parts), 0) + part.ljust(476, b"\0") + struct.pack("<I", 0x0AB16F30)
        for n, part in enumerate(parts)
    )
    return b"".join(blocks)


def made():
    whole = bytes(make.RP2350.image().bytes)
    odd = ["two\nlines", "\x1b[31mred", "back\\slash", "c1\x9b", "voile \u00e0 livarde", ""]
    return {
        "empty.img": b"",
        "zeros.img": bytes(1024),
        "large.img": bytes(2097153),
        "cut575.img": whole[:575],
        "cut576.img": whole[:576],
        "cut1600.img": whole[:1600],
        "cut3000.img": whole[:3000],
        "newer.img": changed(("header", 4, struct.pack("<4H", 0, 7, 0, 0))),
        "odd.img": one_rom_sets(odd, [1] * 6),
        "accented.img": bytes(accented().image().bytes),
        "three.img": one_rom_sets(["genoa.bin"] * 4, [1, 2, 1, 1]),
        "board.uf2": uf2(whole),
        "large.uf2": uf2(whole + bytes(2**20)),
        "board.elf": b"\x7fELF\2\1\1" + bytes(57) + whole,
        "crowded.img": bytes(make.crowded(17, 241).bytes),
    }


def folder_with_boards(at):
    os.symlink(os.path.join(TOP, "samples"), os.path.join(at, "samples"))
    os.mkdir(os.path.join(at, "made"))
    for name, data in made().items():
        put(at, name, data)
    return at


def header(offset, form, *values):
    return changed(("header", offset, struct.pack(form, *values)))


def pins_with(*writes):
    return changed(*(("pins", offset, bytes(data)) for offset, data in writes))


def metadata_with(offset, data):
    image = bytearray(changed())
    at = struct.unpack_from("<I", image, 512 + 44)[0] - make.RP2350.base
    image[at + offset : at + offset + len(data)] = data
    return bytes(image)


def extra_with(offset, data):
    image = bytearray(changed())
    at = struct.unpack_from("<I", image, 512 + 56)[0] - make.RP2350.base
    image[at + offset : at + offset + len(data)] = data
    return bytes(image)


def several(*writes):
    """multi.img with bytes of its pins changed."""
    image = make.MULTI.image()
    for offset, data in writes:
        image.write(make.MULTI.at["pins"] + offset, bytes(data))
    return bytes(image.bytes)


def no_rom():
    return changed((("set", 0), 12, b"\0"))
