"""Everything for a person fits 80 columns, but for text of the dump and of the command line, which is not broken."""
import make
from calls import SAMPLE
from made import board_of, changed, extra_with, header, made, metadata_with, pins_with
from refusals import refused_items, refused_openings, refused_reads
from tools import expect, put, run

WIDTH = 80
LONGEST = "a" * 1023  # a name


def wide_numbers():
    """Boards whose numbers have all the digits that they can have."""
    high = bytes([254] * 88)
    return [
        header(4, "<4H", 0, 6, 65535, 65535),
        header(26, "<H", 65535),
        header(32, "<H", 65535),
        changed(("header", 20, b"\xff\xff\xff\xff\xff\xff\xff\x7f")),
        changed(("header", 20, b"\x01\x02\x03\x04\x05\x06\x0b\x0e")),
        changed(("header", 34, bytes([0] * 7))),
        extra_with(0, b"\xff" * 4 + b"\1\0\xfe\1" + b"\xfe" * 4),
        pins_with((5, high[:83])),
        pins_with((5, bytes([40])), (8, high[:55]), (63, b"\1")),
        changed((("set", 0), 4, b"\xff\xff\xff\xff"), (("set", 1), 0, b"\xff" * 4), (("set", 2), 16, b"\xee" * 8)),
        metadata_with(16, b"\xff"),
        bytes(board_of([make.RomSet([make.Rom(LONGEST, make.ROM_2316, (make.HIGH,) * 3)], 2048, 1)]).image().bytes),
    ]


def several_kinds():
    """255 sets: of each size there are some, so that the same sets' line names many; names differ in some."""
    def kind(i):
        return [make.Rom("n%d" % (i % 3), make.ROM_2316)]

    return [
        bytes(make.crowded(255, 16).bytes),
        bytes(make.crowded(255, 1).bytes),
        bytes(make.crowded(100, 1).bytes),
        bytes(board_of([make.RomSet(kind(i), 2048, i % 3) for i in range(255)]).image().bytes),
        bytes(board_of([make.RomSet(kind(i) * (i % 5), 64, i % 2) for i in range(255)]).image().bytes),
        bytes(board_of([make.RomSet(kind(i), 64, 1) for i in range(3)]).image().bytes),
    ]


def fits(at, words):
    """A word of the command line does not count where a line shows it, unless it is a number; nor does the longest name."""
    for to, text in zip(("output", "error"), run(at, *words)):
        for line in text.decode().split("\n"):
            shown = [word for word in (*words, LONGEST) if not word.isdigit() and word in line]
            width = len(line) - max(map(len, shown), default=0)
            expect(width <= WIDTH, "bench %r, standard %s: %d columns\n%s" % (words, to, width, line))


def columns(at):
    for words in ([], ["help"], ["--version"], ["--bogus"], ["read"], ["raw", "0"], [SAMPLE, "b"], [SAMPLE, "read", "x"], [SAMPLE, "read", "0", "x"]):
        fits(at, words)
    for file in [SAMPLE, "samples/stm32.img", "samples/multi.img", "samples/mixed.img", "samples/damaged.img", "none", "made"] + ["made/" + name for name in made()]:
        for words in ([], ["raw", "9"], ["byte", "0", "0"], ["byte", "0", "4294967295"], ["byte", "4294967295", "0"]):
            fits(at, [file, *words])
            if "byte" in words and not file.startswith("made"):
                fits(at, [file, *words, "--by-set-0"])
    kinds = several_kinds()
    images = [image for _, image in refused_openings()] + [image for _, _, image in refused_items()] + wide_numbers() + kinds
    for image in images:
        fits(at, [put(at, "w", image)])
    for _, image, words in refused_reads():
        fits(at, [put(at, "w", image), *words])
    many = put(at, "w", kinds[1])
    for words in (["byte", "254", "0"], ["byte", "254", "4294967295"]):
        fits(at, [many, *words])
        fits(at, [many, *words, "--by-set-0"])
    fits(at, ["samples/mixed.img", "byte", "1", "5", "cs1=1", "--by-set-0"])
    # Every type, beside every state.
    for n in range(34):
        fits(at, [put(at, "w", changed((("rom", 0, 0), 0, bytes([n, 1, 1, 1]))))])
    fits(at, ["--flash-base", "0xffffffff", "--cs0-base", "0xffffffff", SAMPLE])
