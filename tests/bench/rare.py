"""Sets without ROMs or bytes, 255 sets, early firmware, the largest read, damaged boards."""
import struct

import make
from made import board_of, changed, header
from tools import bytes_of, expect, facts_of, put, refused_whole, run, same, words_of_numbers


def rare(at):
    no_roms = put(at, "no_roms.img", bytes(board_of([
        make.RomSet([], 64, 1), make.RomSet([make.Rom("jib.bin", make.ROM_2316)], 2048, 1), make.RomSet([], 64, 1),
        make.RomSet([make.Rom("foresail.bin", make.ROM_2332)], 4096, 1),
    ]).image().bytes))
    got = dict(facts_of(at, no_roms))
    same((got["set.2.roms"], got["set.2.same_as"]), ("0", "0"), "sets without ROMs")
    table = words_of_numbers()
    for words in (["read", "2"], ["byte", "2", "0"], ["read", "0"], ["read", "1", "--by-set-0"], ["byte", "3", "0", "--by-set-0"]):
        refused_whole(at, 74, table[74], no_roms, *words)
    same(bytes_of(at, no_roms, "read", "1"), make.Rom("jib.bin", make.ROM_2316).text(), "a set with a ROM beside sets without")
    empty = put(at, "no_bytes.img", changed((("set", 4), 4, bytes(4))))
    same((dict(facts_of(at, empty))["set.4.data.number"], bytes_of(at, empty, "raw", "4")), ("0", b""), "a set of no bytes")
    same(dict(facts_of(at, put(at, "many.img", make.crowded(255, 16).bytes)))["set.254.same_as"], "0", "255 sets")
    old = put(at, "old.img", header(4, "<4H", 0, 3, 9, 0))
    same(dict(facts_of(at, old))["extra.number"], "2", "firmware 0.3.9")
    expect(b"(there is none before firmware 0.4)\n" in run(at, old)[0], "firmware 0.3.9 for a person")
    expect(b"(there is none" not in run(at, put(at, "old.img", header(4, "<4H", 0, 4, 0, 0)))[0], "firmware 0.4.0 for a person")
    wide_read(at)
    damaged_boards(at)


def wide_read(at):
    """A 231024's addresses, the most there are: bit 16 reaches no pin, so the second half is the first again."""
    pins = make.Pins((5,) * 5, list(range(8)), 0, list(range(16)), (15, 15, 15))
    board = board_of([make.RomSet([make.Rom("spinnaker.bin", make.ROM_2316)], 65536, 1)])
    board.pins = pins
    image = board.image()
    data = bytes((7 * i + i // 251) % 256 for i in range(65536))
    image.write(board.at["rom", 0, 0], bytes([14]))
    start = struct.unpack_from("<I", image.bytes, board.at["set", 0] - board.base)[0]
    image.write(start, data)
    # CS1 is input bit 17, which is never high: pin 15 stays low whatever address line 15 has.
    half = bytes(data[i & 0x7FFF] for i in range(65536))
    same(bytes_of(at, put(at, "wide.img", image.bytes), "read", "0"), half + half, "a read of 131,072 bytes")


def damaged_boards(at):
    """Whatever the board: an answer or a refusal, never both; no byte with a refusal; one line for a person."""
    seed = 1
    whole = [bytes(image.bytes) for image in make.boards().values()]
    for k in range(120):
        image = bytearray(whole[k % len(whole)])
        for _ in range(1 + k % 7):
            seed = (seed * 6364136223846793005 + 1442695040888963407) % 2**64
            image[512 + (seed >> 33) % 1100] = seed >> 56
        file = put(at, "hurt.img", bytes(image[: len(image) if k % 3 else 600 + 97 * k]))
        for words in ([], ["read", "0"], ["raw", "1"], ["byte", "1", "3"] + ["--by-set-0"] * (k // 5 % 2)):
            out, err = run(at, file, *words)
            expect((out == b"") == (err != b"") or (words[:1] == ["raw"] and err == b""), "damaged board %d, %r" % (k, words))
            expect(err.count(b"\n") <= 2, "damaged board %d, %r: two lines at most" % (k, words))
            lines = run(at, file, *words, "--machine")[1 if words[:1] in (["read"], ["raw"]) else 0].split(b"\n")
            expect(lines[0] == b"ok" if err == b"" else lines[0].startswith(b"refused "), "damaged board %d, %r, for a script" % (k, words))
