"""Sets that are the same: beside the library's answer, what their names and stored bytes show."""
import struct

import make
from made import board_of, changed
from tools import expect, facts_of, put, run, same

# How a script is told, and a person.
EQUAL, DIFFER, NOT_HELD = ("equal", "equal"), ("differ", "differ"), ("not_held", "not all in the dump")


def image_of(sets, *writes):
    """A board of sets, with bytes written at places in it: (what, offset from it, bytes), or into set i's own bytes: (i, offset, bytes)."""
    board = board_of(sets)
    image = board.image()
    for what, offset, data in writes:
        if isinstance(what, int):
            at = struct.unpack_from("<I", image.bytes, board.at["set", what] - board.base)[0]
        else:
            at = board.at[what]
        image.write(at + offset, data)
    return bytes(image.bytes)


def one_rom(*names):
    return [make.RomSet([make.Rom(name, make.ROM_2316)], 2048, 1) for name in names]


def several(*sets_of_names):
    return [make.RomSet([make.Rom(name, make.ROM_2316, (make.LOW, 2, 2)) for name in names], 16384, 2, make.LOW) for names in sets_of_names]


NO_NAME = struct.pack("<I", make.NONE)


def cases():
    """What the board is, its bytes, and for each set that is the same as an earlier one: that one, and what names and bytes show."""
    whole = make.RP2350.pins.set_data(several(["a", "b", "c"])[0])
    genoa, jib = (make.RP2350.pins.set_data(one_rom(name)[0]) for name in ("genoa.bin", "jib"))
    far = struct.pack("<I", make.RP2350.base + 0x100000)
    return [
        ("the sample", changed(), {3: (0, EQUAL, EQUAL), 4: (1, DIFFER, DIFFER)}),
        ("a byte of set 3 changed", changed_set(3, 2047), {3: (0, EQUAL, DIFFER), 4: (1, DIFFER, DIFFER)}),
        ("the first byte of set 4 changed", changed_set(4, 0), {3: (0, EQUAL, EQUAL), 4: (1, DIFFER, DIFFER)}),
        ("equal bytes under two names", image_of(one_rom("genoa.bin", "jib.bin"), (1, 0, genoa)), {1: (0, DIFFER, EQUAL)}),
        ("a name that starts the other", image_of(one_rom("jib", "jib.bin"), (1, 0, jib)), {1: (0, DIFFER, EQUAL)}),
        ("no name, and one", image_of(one_rom("jib", "jib"), (("rom", 1, 0), 4, NO_NAME)), {1: (0, DIFFER, EQUAL)}),
        ("no names", image_of(one_rom("jib", "jib"), (("rom", 0, 0), 4, NO_NAME), (("rom", 1, 0), 4, NO_NAME)), {1: (0, EQUAL, EQUAL)}),
        ("bytes past the dump's end", image_of(one_rom("jib", "jib"), (("set", 1), 0, far)), {1: (0, EQUAL, NOT_HELD)}),
        ("three, by the first", image_of(one_rom("jib", "jib", "genoa")), {1: (0, EQUAL, EQUAL), 2: (0, DIFFER, DIFFER)}),
        ("several ROMs", image_of(several(["a", "b", "c"], ["a", "b", "c"])), {1: (0, EQUAL, EQUAL)}),
        ("the last of several names", image_of(several(["a", "b", "c"], ["a", "b", "d"]), (1, 0, whole)), {1: (0, DIFFER, EQUAL)}),
        ("no ROMs and no bytes", image_of([make.RomSet([], 0, 1)] * 2), {1: (0, EQUAL, EQUAL)}),
        ("none", image_of(one_rom("jib") + several(["jib"])), {}),
    ]


def changed_set(i, offset):
    image = make.RP2350.image()
    at = struct.unpack_from("<I", image.bytes, make.RP2350.at["set", i] - image.base)[0] - image.base + offset
    image.bytes[at] ^= 1
    return bytes(image.bytes)


def alike(at):
    for what, image, wanted in cases():
        file = put(at, "alike.img", image)
        facts = dict(facts_of(at, file))
        got = {key: value for key, value in facts.items() if ".same_as" in key}
        script = {"set.%d.same_as" % i: str(first) for i, (first, _, _) in wanted.items()}
        script.update({"set.%d.same_as.names" % i: names[0] for i, (_, names, _) in wanted.items()})
        script.update({"set.%d.same_as.bytes" % i: data[0] for i, (_, _, data) in wanted.items()})
        same(got, script, what + ", for a script")
        out, err = run(at, file)
        lines = [line for line in out.decode().split("\n") if line.startswith("sets ")]
        person = ["sets %d and %d are the same (names %s; stored bytes %s)" % (first, i, names[1], data[1]) for i, (first, names, data) in wanted.items()]
        same((lines, err), (person, b""), what + ", for a person")
        expect((b"no two sets are the same" in out) == (not wanted), what + ": whether any are the same")
