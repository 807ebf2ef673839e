#!/usr/bin/env python3
"""The rows of boards of up to 255 sets, as the C call leaves them, beside the answers of another reader: python3 tests/c/rows.py PROGRAM

tests/data/rows-vectors.xz is a line of JSON, then the images. A board has words 3 and 2 of its set rows (rom_counts, first_rows), and the SHA-256
of all words written: of ROM rows once without the width, seven words a row, and once with it, eight, which is what is compared. PROGRAM is
tests/c/rows.c."""
import hashlib
import json
import lzma
import os
import re
import struct
import subprocess
import sys
from collections import namedtuple
from itertools import accumulate

TOP = os.path.dirname(os.path.dirname(os.path.dirname(os.path.abspath(__file__))))
SET_WORDS = 8
# what a buffer may have beyond its rows: more than a row, and not a whole number of them
LONGER = 13

# One call: the board, how its rows are lent, what must come, and how many words of either buffer are written.
Opening = namedtuple("Opening", "board how set_words rom_words number sets set_written rom_written")


def same(got, wanted, what):
    if got != wanted:
        sys.exit("%s:\n  got    %r\n  wanted %r" % (what, got, wanted))


def same_words(got, wanted, what):
    """Lists of one word a set; a failure names the first set that differs."""
    for i, (word, other) in enumerate(zip(got, wanted)):
        same(word, other, "%s of set %d" % (what, i))
    same(len(got), len(wanted), "the sets of " + what)


def rom_row_words():
    """The words of a ROM row, by the header."""
    with open(os.path.join(TOP, "include", "onerom.h")) as f:
        return int(re.search(r"^#define ONEROM_ROM_WORDS (\d+)$", f.read(), re.M).group(1))


ROM_WORDS = rom_row_words()
# the stored number of words lent is for ROM rows of so many
STORED_WORDS = 7


def boards():
    """The stored boards, each with its image; what is stored of one must agree in itself."""
    with lzma.open(os.path.join(TOP, "tests", "data", "rows-vectors.xz")) as f:
        text, _, images = f.read().partition(b"\n")
    out, at = json.loads(text), 0
    for v in out:
        v["image"] = images[at : at + v["length"]]
        at += v["length"]
        same(len(v["image"]), v["length"], v["note"] + ": the image's length")
        if v["opening"]:
            v.update(sets=[0, 0, 0], rom_counts=[], first_rows=[])
        # the first ROM row is the sum of the earlier sets' counts
        sums = list(accumulate(v["rom_counts"], initial=0))[:-1]
        same_words(v["first_rows"], sums, v["note"] + ": the stored first ROM row, beside the stored counts,")
        same(len(v["rom_counts"]), v["sets"][2], v["note"] + ": as many stored counts as sets served")
    same(at, len(images), "the length of all images")
    return out


def openings(v):
    """Every way in which a board's rows are lent. Refused with 44 or 45 nothing is written, and the report is zeros."""
    # a word more for each whole row
    given = v["set_words"], v["rom_words"] + v["rom_words"] // STORED_WORDS * (ROM_WORDS - STORED_WORDS)
    written = SET_WORDS * len(v["rom_counts"]), ROM_WORDS * sum(v["rom_counts"])
    refused = [0, 0, 0], 0, 0
    yield Opening(v, "as stored", *given, v["opening"], v["sets"], *written)
    if v["opening"]:
        return
    if v["sets"][0]:
        # only a walk otherwise accepted asks for rows
        yield Opening(v, "no words lent", 0, 0, 0, v["sets"], 0, 0)
        return
    yield Opening(v, "longer buffers", *(n + LONGER for n in written), 0, v["sets"], *written)
    if written[0]:
        yield Opening(v, "a set word short", written[0] - 1, written[1], 44, *refused)
    if written[1]:
        yield Opening(v, "a ROM word short", written[0], written[1] - 1, 45, *refused)
        yield Opening(v, "a word of each short", written[0] - 1, written[1] - 1, 44, *refused)


def answers(program, asked):
    """For each opening the four numbers and the bytes of both buffers, as the program wrote them."""
    records = (struct.pack("<6I", *o.board["settings"], o.set_words, o.rom_words, len(o.board["image"])) + o.board["image"] for o in asked)
    done = subprocess.run([program], input=b"".join(records), capture_output=True, timeout=60)
    out, at = [], 0
    for o in asked:
        rows = at + 16, at + 16 + 4 * o.set_words, at + 16 + 4 * (o.set_words + o.rom_words)
        if len(done.stdout) < rows[2]:
            sys.exit("%s, %s: no answer, status %d\n%s" % (o.board["note"], o.how, done.returncode, done.stderr.decode()))
        out.append((struct.unpack_from("<4I", done.stdout, at), done.stdout[rows[0] : rows[1]], done.stdout[rows[1] : rows[2]]))
        at = rows[2]
    same((done.returncode, done.stderr, len(done.stdout)), (0, b"", at), "the program's end")
    return out


def compare(o, numbers, set_rows, rom_rows, before):
    what = "%s, %s: " % (o.board["note"], o.how)
    same(numbers[0], o.number, what + "the number")
    same(list(numbers[1:]), o.sets, what + "the sets item's number, set count and sets served")
    words = struct.unpack("<%dI" % o.set_written, set_rows[: 4 * o.set_written])
    if o.set_written:
        same_words(words[3::SET_WORDS], o.board["rom_counts"], what + "the ROM count")
        same_words(words[2::SET_WORDS], o.board["first_rows"], what + "the first ROM row")
    for name, rows, n, key in (("set", set_rows, o.set_written, "set_rows_sha256"), ("ROM", rom_rows, o.rom_written, "rom_rows_sha256_eight")):
        if o.number == 0:
            same(hashlib.sha256(rows[: 4 * n]).hexdigest(), o.board[key], what + "SHA-256 of the %s rows" % name)
        if rows[4 * n :] != before[4 * n : len(rows)]:
            sys.exit(what + "a word of the %s rows is written that should not be" % name)


def main():
    stored = boards()
    asked = [o for v in stored for o in openings(v)]
    # what tests/c/rows.c fills both buffers with
    longest = max((max(o.set_words, o.rom_words) for o in asked), default=0)
    before = struct.pack("<%dI" % longest, *((0x9E3779B1 * i + 0xC5A3F00D) & 0xFFFFFFFF for i in range(longest)))
    for o, answer in zip(asked, answers(sys.argv[1], asked)):
        compare(o, *answer, before)
    same({(v["opening"], v["sets"][0]) for v in stored}, {(0, 0), (0, 40), (44, 0), (45, 0)}, "the numbers that occur")
    same(max((len(v["rom_counts"]), sum(v["rom_counts"])) for v in stored), (255, 65025), "the largest board's sets and ROMs")
    rows = sum(o.set_written for o in asked) // SET_WORDS, sum(o.rom_written for o in asked) // ROM_WORDS
    print("the other reader's rows agree: %d boards, %d openings, %d set rows, %d ROM rows" % (len(stored), len(asked), *rows))


if __name__ == "__main__":
    main()
