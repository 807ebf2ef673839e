"""Boards of 255 sets: what ./bench says of them is what they were made of, and it takes a second at most."""
import copy
import re
import struct
import time

import make
from calls import call, refused
from facts import TYPES, board_facts, characters
from made import board_of
from tools import expect, put, same, words_of_numbers

SETS = 255
ROM_ROWS = 4096  # those that the bench has
DUMP = 2**20  # half of the greatest that the bench takes
SECONDS = 1


def in_time(at, *words):
    """What ./bench says; one of three runs is to be quick enough, since the machine may be busy."""
    took = []
    while len(took) < 3:
        start = time.monotonic()
        got = call(at, *words)
        took.append(time.monotonic() - start)
        if took[-1] <= SECONDS:
            return got
    expect(False, "bench %s takes %.2f seconds" % (" ".join(words), min(took)))


def same_each(got, wanted, what):
    """Of many, the first that is another is shown."""
    for one, other in zip(got, wanted):
        same(one, other, what)
    same(len(got), len(wanted), what + ": how many")


def sets_of(count, kind, size):
    """Set i has count(i) ROMs, each with a name of its own; the last of them is of a type of its own."""
    def roms(i):
        return [make.Rom("rom-%d-%d.bin" % (i, k), kind(i) if k == count(i) - 1 else make.ROM_2364) for k in range(count(i))]

    board = board_of([make.RomSet(roms(i), size, 1) for i in range(SETS)])
    board.pins = copy.copy(board.pins)
    board.pins.set_data = lambda s: bytes(s.size)  # no ROM's text: it is not read here
    return board


def same_as(board):
    """For each set that is the same as an earlier one: the first such set."""
    first, found = {}, {}
    for i, s in enumerate(board.sets):
        like = first.setdefault((s.size, s.serve, tuple(rom.kind for rom in s.roms)), i)
        if like != i:
            found[i] = like
    return found


def script_facts(got, what):
    """The facts that a script is told."""
    code, out, err = got
    lines = out.decode().split("\n")
    same((code, err, lines[0], lines[-2:]), (0, b"", "ok", ["end", ""]), what)
    return [tuple(line.split(" ", 1)) for line in lines[1:-2]]


def person_is_told(got, board, what):
    """Each set with its ROM count, each ROM with type, name and width, and which sets are the same."""
    code, out, err = got
    same((code, err), (0, b""), what)
    forms = r"^set (\d+): .*, (\d+) ROMs?, |^  ROM (\d+): (.*), file (.*)\n {9}(.*); CS1 |^sets (\d+) and (\d+) are the same "
    said = re.findall(forms, out.decode(), re.M)
    wanted = []
    for i, s in enumerate(board.sets):
        wanted.append((str(i), str(len(s.roms)), "", "", "", "", "", ""))
        wanted += [("", "", str(k), TYPES[rom.kind], rom.name, characters(rom.name), "", "") for k, rom in enumerate(s.roms)]
    wanted += [("", "", "", "", "", "", str(first), str(i)) for i, first in same_as(board).items()]
    same_each(said, wanted, what)
    expect(b"\nSets               %d\n" % SETS in out, what + ": their number")


def whole(at, board, what):
    """The report, or the refusal of a board with more ROMs than there are rows for."""
    file = put(at, "quick.img", bytes(board.image().bytes))
    person, script = in_time(at, file), in_time(at, file, "--machine")
    if sum(len(s.roms) for s in board.sets) > ROM_ROWS:
        refused(person, 1, 45, words_of_numbers(), [file], what)
        refused(script, 1, 45, words_of_numbers(), [file, "--machine"], what)
        return
    person_is_told(person, board, what + ", for a person")
    same_each(script_facts(script, what), board_facts(board, same_as(board)), what + ", for a script")


def long_sets(at):
    """The sets lie over each other, each a byte further, and are equal up to the end; but the last one's last byte is another."""
    board = sets_of(lambda i: 1, lambda i: make.ROM_2364, 0)
    image = board.image()
    start = image.put(b"")
    size = image.base + DUMP - start - (SETS - 1)
    image.bytes = image.bytes.ljust(DUMP, b"\xff")
    image.bytes[-1] = 0
    for i in range(SETS):
        image.write(board.at["set", i], struct.pack("<II", start + i, size))
    file = put(at, "quick.img", bytes(image.bytes))
    out = in_time(at, file)[1].decode()
    facts = dict(script_facts(in_time(at, file, "--machine"), "long sets"))
    for i in range(SETS):
        same((facts["set.%d.size" % i], facts["set.%d.data.number" % i]), (str(size), "0"), "long sets: set %d" % i)
    wanted = ["equal"] * (SETS - 2) + ["differ"]
    same([facts["set.%d.same_as.bytes" % i] for i in range(1, SETS)], wanted, "long sets, for a script")
    same(re.findall(r"^sets 0 and \d+ are the same \(names differ; stored bytes (.*)\)$", out, re.M), wanted, "long sets, for a person")


def quick(at):
    for count, what in ((lambda i: 1, "1 ROM in each"), (lambda i: i % 32, "up to 31 ROMs in each"), (lambda i: 255, "255 ROMs in each")):
        whole(at, sets_of(count, lambda i: i % len(TYPES), 16), "255 sets, " + what)
    long_sets(at)
