"""Each number that can occur, in the words of docs/BENCH.md."""
import struct
import subprocess

import make
from made import board_of, changed, header, metadata_with, no_rom, pins_with, several
from tools import BYTES, PROGRAM, facts_of, put, refused_item, refused_whole, run, same, words_of_numbers


def refused_openings():
    return [
        (10, header(0, "<4s", b"sdrr")),
        (11, header(28, "<H", 6)),
        (12, header(30, "<H", 8)),
        (13, header(4, "<4H", 1, 0, 0, 0)),
        (45, bytes(make.crowded(255, 17).bytes)),
    ]


def refused_items():
    long_name = bytearray(changed())
    far = len(long_name)
    long_name += b"a" * 1025
    struct.pack_into("<I", long_name, 512 + 12, make.RP2350.base + far)
    return [
        (2, "build_date", header(12, "<I", 0x1FFFFFFF)),
        (3, "build_date", header(12, "<I", 0x0FFFFFFF)),
        (20, "build_date", bytes(long_name)),
        (21, "build_date", header(12, "<I", make.RP2350.base)),
        (30, "metadata", metadata_with(0, b"ONEROM-METADATA")),
        (31, "metadata", metadata_with(16, b"\2")),
        (32, "metadata", metadata_with(24, b"\0\0\0\0")),
        (40, "sets", changed((("set", 2), 13, b"\3"))),
        (41, "sets", changed((("set", 2), 14, b"\3"))),
        (42, "sets", changed((("rom", 4, 0), 0, b"\x22"))),
        (43, "sets", changed((("rom", 4, 0), 3, b"\3"))),
        (50, "pins", pins_with((0, [6]))),
    ]


def refused_reads():
    return [
        (70, pins_with((0, [6])), ["read", "0"]),
        (72, several((42, [40])), ["read", "0"]),
        (73, several((43, [18])), ["byte", "0", "0"]),
        (74, no_rom(), ["read", "0"]),
        (75, changed((("rom", 0, 0), 0, b"\6")), ["byte", "0", "0"]),
        (76, pins_with((36, [200])), ["read", "0"]),
        (77, changed(), ["byte", "0", "0x800"]),
        (78, changed((("rom", 0, 0), 0, b"\x1a"), ("pins", 44, bytes([21, 20]))), ["byte", "0", "0"]),  # with CE and OE
        (79, pins_with((8, [8])), ["read", "0"]),
        (80, changed(), ["raw", "5"]),
        (81, changed(), ["read", "0", "cs1=1"]),
        # What set 0 has counts for other sets only where it is asked for.
        (72, several((42, [40])), ["read", "1", "--by-set-0"]),
        (73, several((43, [18])), ["byte", "1", "0", "--by-set-0"]),
        (74, no_rom(), ["byte", "1", "0", "--by-set-0"]),
        (75, changed((("rom", 0, 0), 0, b"\6")), ["read", "1", "--by-set-0"]),
        (77, changed(), ["byte", "2", "0x800", "--by-set-0"]),
        (78, changed((("rom", 0, 0), 0, b"\x1a"), ("pins", 44, bytes([21, 20]))), ["byte", "1", "0", "--by-set-0"]),
        # The set is looked for first: a board without sets, and one without pins.
        (80, bytes(board_of([]).image().bytes), ["read", "0"]),
        (80, bytes(board_of([]).image().bytes), ["byte", "0", "0", "--by-set-0"]),
        (80, pins_with((0, [6])), ["read", "5"]),
        (80, pins_with((0, [6])), ["byte", "5", "0", "--by-set-0"]),
    ]


def accepted_reads():
    """Boards on which set 0 can't be read, and set 1 can."""
    return [several((42, [40])), several((43, [18])), no_rom(), changed((("rom", 0, 0), 0, b"\6")), changed((("rom", 0, 0), 0, b"\x1a"), ("pins", 44, bytes([21, 20])))]


def numbers(at):
    table = words_of_numbers()
    for number, image in refused_openings():
        refused_whole(at, number, table[number], put(at, "opening.img", image))
    for number, item, image in refused_items():
        refused_item(at, number, table[number], item, image)
    for number, image, words in refused_reads():
        refused_whole(at, number, table[number], put(at, "read.img", image), *words)
    for image in accepted_reads():
        file = put(at, "read.img", image)
        same(dict(facts_of(at, file, "byte", "1", "0"))["by_set"], "1", "set 1 beside a set 0 that can't be read")
        # A refusal says where a read goes by set 0.
        err = run(at, file, "byte", "1", "0", "--by-set-0")[1].decode()
        same(err.split(": ref")[0], "bench: made/read.img, set 1, address 0x00000000, by set 0", "a refusal of a read by set 0")
    refused_whole(at, 1, table[1], "--flash-base", "0xffffffff")
    refused_whole(at, 112, table[112], "made/large.img")
    refused_whole(at, 109, table[109], "made")
    # A file that holds a dump in parts, whatever is asked of it, and however long it is; but a board that opens is one.
    for number, file in ((117, "made/board.uf2"), (117, "made/large.uf2"), (118, "made/board.elf")):
        for words in ([], ["read", "0"], ["raw", "0"], ["byte", "0", "0"]):
            refused_whole(at, number, table[number], file, *words)
    for start in (b"UF2\n", b"\x7fELF"):
        same(dict(facts_of(at, put(at, "start.img", start + changed()[4:])))["sets.served"], "5", "a board that starts with %r" % start)
    # 2 MiB is not too large, a byte more is; 4,096 ROMs are not too many, 4,097 are.
    refused_whole(at, 10, table[10], put(at, "two.img", bytes(2097152)))
    same(dict(facts_of(at, put(at, "full.img", make.crowded(16, 255).bytes + b"")))["sets.served"], "16", "4,080 ROMs")
    same(dict(facts_of(at, put(at, "full.img", make.crowded(64, 64).bytes + b"")))["sets.served"], "64", "4,096 ROMs")
    refused_whole(at, 45, table[45], "made/crowded.img")
    # What can't be written is said.
    with open("/dev/full", "wb") as full:
        done = subprocess.run([BYTES, "samples/rp2350.img", "raw", "0"], cwd=at, stdout=full, stderr=subprocess.PIPE, timeout=60)
    same(done.stderr.decode(), "bench: samples/rp2350.img, set 0: %s\n" % table[115], "a full device")
    with open("/dev/full", "wb") as full:
        done = subprocess.run([PROGRAM, "--machine"], cwd=at, stdout=full, stderr=subprocess.PIPE, timeout=60)
    same(done.stderr.decode(), "refused 115\nreason %s\n" % table[115], "a full device, for a script")
    # What is another program's to answer, said of itself by each; ./bench is told by the status alone.
    for program, words in ((PROGRAM, ["raw", "0"]), (PROGRAM, ["byte", "0", "1"]), (BYTES, []), (BYTES, ["help"])):
        for more in ([], ["--machine"]):
            done = subprocess.run([program, "samples/rp2350.img", *words, *more], cwd=at, capture_output=True, timeout=60)
            said = b"refused 119\nreason %s\n" if more else b"bench: samples/rp2350.img: %s\n"
            same(done.stdout + done.stderr, said % table[119].encode(), "%s %r %r" % (program, words, more))
