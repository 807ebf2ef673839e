"""Each type, line, storage, port, flag and pin by its name."""
import struct

import make
from facts import FLAGS, LINES, PORT, STATE, STORAGES, TYPES
from made import changed, extra_with, header
from tools import expect, facts_of, put, run, same


def has(at, image, wanted, *options):
    """A script is told these facts of the board."""
    got = dict(facts_of(at, put(at, "named.img", image), *options))
    for key, value in wanted.items():
        same(got[key], str(value), key)


def one_flag(k):
    """The header's flags with this one on alone."""
    flags = [0] * 9
    flags[k] = 7
    return changed(("header", 34, bytes(flags[:7])), ("header", 42, bytes(flags[8:] if k < 7 else [7])))


def pins_of_all_kinds():
    """A pins record with a value of its own at each place, and the facts of it."""
    p = bytearray(range(100, 188))
    p[0:5], p[5], p[63] = bytes([1, 2, 3, 4, 5]), 28, 1
    at = {"cs1": 36, "cs2": 37, "cs3": 38, "x1": 42, "x2": 43, "ce": 44, "oe": 45, "x_pull": 46, "swclk": 50, "swdio": 51, "sel_pull": 59, "status": 60}
    runs = {"data": (8, 8), "addr": (16, 16), "sel": (52, 7), "data2": (64, 8), "addr2": (72, 16)}
    facts = {"pins." + k: p[n] for k, n in at.items()}
    facts.update({"pins." + k: " ".join(map(str, p[n : n + m])) for k, (n, m) in runs.items()})
    facts.update({"pins.port." + k: PORT[n + 1] for n, k in enumerate(["data", "addr", "cs", "sel", "status"])})
    return changed(("pins", 0, bytes(p))), dict(facts, **{"pins.rom_pins": 28, "pins.extended": 1})


def names(at):
    for n, name in enumerate(TYPES):
        image = changed((("rom", 0, 0), 0, bytes([n])))
        has(at, image, {"set.0.rom.0.type": name})
        expect(b"\n  ROM 0: %s, file " % name.encode() in run(at, "made/named.img")[0], "type %d for a person" % n)
    for n, name in enumerate(LINES):
        has(at, header(28, "<H", n), {"mcu.line": name, "sets.served": 5}, "--flash-base", "0x10000000")
    for n, (name, kib) in enumerate(STORAGES):
        has(at, header(30, "<H", n), {"mcu.storage": name, "mcu.kib": kib})
    for k in range(8):
        wanted = {"flag." + name: int(i == k) for i, name in enumerate(FLAGS + ["access_count"])}
        has(at, one_flag(k), wanted)
        said = run(at, "made/named.img")[0]
        label = ["overclock", "SWD", "preload to RAM", "bootloader", "status LED", "boot logging", "MCO", "access count"][k]
        expect(said.count(b" on,") + said.count(b" on\n") >= 1 and (label + " on").encode() in said, label + " for a person")
    for n in range(8):
        has(at, extra_with(5, bytes([n])), {"extra.usb_port": (PORT + ["none", "none"])[n]})
    has(at, extra_with(4, bytes([0, 1, 33, 0])), {"extra.usb_dfu": 0, "extra.usb_port": "A", "extra.vbus_pin": 33, "extra.pio_default": 0})
    has(at, *pins_of_all_kinds())
    for n, name in enumerate(STATE):
        has(at, changed((("rom", 0, 0), 2, bytes([n])), (("set", 0), 14, bytes([n]))), {"set.0.rom.0.cs2": name, "set.0.multi_rom_state": n})
    for n, name in enumerate((b"A (CS checked twice)", b"B (address on CS)", b"C (address on any CS)")):
        has(at, changed((("set", 2), 13, bytes([n]))), {"set.2.serve": n})
        expect(b"set 2: 4096 bytes at 0x10001678, 1 ROM, serving " + name in run(at, "made/named.img")[0], "serve %d for a person" % n)
    config = struct.pack("<II", make.RP2350.base, make.RP2350.base + 16)
    has(at, changed((("set", 1), 16, config)), {"set.1.config": "0x10000000", "set.1.overrides": "0x10000010"})
