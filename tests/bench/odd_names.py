"""Names that could deceive who reads them, in a dump and on the command line; and how wide a name is."""
import os
import shutil
import struct

import make
from calls import SAMPLE, call
from facts import characters
from made import changed, one_rom_sets
from tools import TOP, expect, facts_of, put, run, same, words_of_numbers

# The chip selects of every ROM here.
SELECTS = "CS1 active low, CS2 active low, CS3 active low"
# A name as UTF-8 has it, and how it is shown.
NAMES = [
    ("two\nlines", r"two\x0alines"),
    ("\x1b[31mred", r"\x1b[31mred"),
    ("back\\slash", r"back\x5cslash"),
    ("c1\x9b", r"c1\xc2\x9b"),
    ("del\x7f", r"del\x7f"),
    ("voile \u00e0 livarde", "voile \u00e0 livarde"),
    ("\u200emizzen", r"\u200emizzen"),
    ("nib.\u202egnp", r"nib.\u202egnp"),
    ("\ufeff\u061c", r"\ufeff\u061c"),
    ("\u200b\u200c\u200d\u200e\u200f", r"\u200b\u200c\u200d\u200e\u200f"),
    ("\u2028\u2029\u202a\u202b\u202c\u202d\u202e", r"\u2028\u2029\u202a\u202b\u202c\u202d\u202e"),
    ("\u2060\u2061\u2062\u2063\u2064", r"\u2060\u2061\u2062\u2063\u2064"),
    ("\u2066\u2067\u2068\u2069", r"\u2066\u2067\u2068\u2069"),
    # their neighbours go out as they are
    ("\u061b\u061d\u200a\u2010\u2027\u202f", "\u061b\u061d\u200a\u2010\u2027\u202f"),
    ("\u205f\u2065\u206a\ufefe\uff00", "\u205f\u2065\u206a\ufefe\uff00"),
    ("\u00a0\U0001f6a2\U0010ffff", "\u00a0\U0001f6a2\U0010ffff"),
]
# Names that are shown as they are: of characters of one byte to four, with a combining mark, of no character, the longest there can be; and some that
# say a width themselves.
PLAIN = ["A", "\u00e9", "\u20ac", "\U0001f600", "e\u0301", "", "\u00e9" * 511 + "a", "a" * 1023]
PLAIN += ["jib.bin (9 characters)", "1 character; CS1 not used, "]
# Bytes of a file name that are no UTF-8, and how they are shown.
BYTES = [
    (b"a\xff", r"a\xff"),
    (b"\xe2\x80", r"\xe2\x80"),
    (b"\xe2\x80\xc2\xa0", "\\xe2\\x80\u00a0"),
    (b"\x80\xbf", r"\x80\xbf"),
    (b"\xc0\xaf", r"\xc0\xaf"),
    (b"\xed\xa0\x80", r"\xed\xa0\x80"),
    (b"\xf4\x90\x80\x80", r"\xf4\x90\x80\x80"),
    (b"\xf8\x88\x80\x80\x80", r"\xf8\x88\x80\x80\x80"),
    (b"\xc3.img", r"\xc3.img"),
]


def in_the_dump(at):
    """A name is shown, and how many characters it has: of the name itself, not of what is shown."""
    names = NAMES + [(name, name) for name in PLAIN]
    file = put(at, "names.img", one_rom_sets([name for name, _ in names], [1] * len(names)))
    facts = dict(facts_of(at, file))
    lines = roms_of(at, file)
    for i, (name, shown) in enumerate(names):
        same(facts["set.%d.rom.0.name.text" % i], shown, "the name %a for a script" % name)
        same(facts["set.%d.rom.0.name.width" % i], str(len(name)), "the width of %a for a script" % name)
        same(lines[i], ("2316, file " + shown, characters(name) + "; " + SELECTS), "the name %a for a person" % name)


def roms_of(at, file):
    """What a person is told of each set's first ROM: its line and the one below, without what stands in front."""
    lines = run(at, file)[0].decode().split("\n")
    return [(line[9:], below[9:]) for line, below in zip(lines, lines[1:]) if line.startswith("  ROM 0: ") and below.startswith(" " * 9)]


def without_a_name(at):
    """Where there is no name, nothing says how wide it is."""
    table = words_of_numbers()
    base, whole = make.RP2350.base, changed()
    stored = struct.unpack_from("<I", whole, make.RP2350.at["set", 0] - base)[0]  # there is no NUL in what a set stores
    pointers = ((1, make.NONE), (1, base - 1), (2, base + len(whole) - 1), (20, stored))
    cases = [(number, changed((("rom", 0, 0), 4, struct.pack("<I", pointer)))) for number, pointer in pointers]
    for number, image in cases + [(21, changed((("name", 0, 0), 0, b"\xc0\x80\0")))]:
        file = put(at, "no_name.img", image)
        facts = dict(facts_of(at, file))
        same(facts["set.0.rom.0.name.number"], str(number), "no name, for a script")
        expect("set.0.rom.0.name.width" not in facts and facts["set.1.rom.0.name.width"] == "12", "%d: a width for a script" % number)
        why = "none is stored" if number == 1 else table[number]
        same(roms_of(at, file)[0], ("2316, no name (%d: %s)" % (number, why), SELECTS), "%d: no name, for a person" % number)


def on_the_command_line(at):
    table = words_of_numbers()
    for name, shown in [(name.encode(), shown) for name, shown in NAMES] + BYTES:
        name = b"made/" + name
        wanted = ("bench: made/%s: %s\n" % (shown, table[108])).encode()
        same(call(at, name), (1, b"", wanted), "no file called %r" % name)
        shutil.copy(os.path.join(TOP, SAMPLE), os.path.join(at.encode(), name))
        code, out, err = call(at, name)
        same((code, out.split(b"\n")[0].decode(), err), (0, "made/%s: a One ROM board, 13944 bytes" % shown, b""), "a file called %r" % name)
        same(call(at, name, "raw", "9")[2], ("bench: made/%s, set 9: refused with 80:\n  %s\n" % (shown, table[80])).encode(), "set 9 of %r" % name)
    # The file that is opened is the one that is named, also where a word before it is text beyond ASCII.
    shutil.copy(os.path.join(TOP, "samples", "mixed.img"), os.path.join(at, "made", "\u00e9.img"))
    code, out, err = call(at, "--sample", "made/\u00e9.img", b"made/a\xff")
    same((code, out.split(b"\n")[0], err), (0, rb"made/a\xff: a One ROM board, 13944 bytes", b""), "a file behind a word beyond ASCII")
    for word, shown in ((b"--\xe2\x80\xae", r"--\u202e"), (b"--\xff", r"--\xff")):
        same(call(at, word), (2, b"", ("bench: %s: %s\n" % (shown, table[101])).encode()), "the option %r" % word)


def odd(at):
    in_the_dump(at)
    without_a_name(at)
    on_the_command_line(at)
