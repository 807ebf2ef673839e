"""What read, raw and byte give is the ROMs' text; also of boards at other bases and offsets."""
import functools
import re

import make
from facts import board_facts
from made import changed
from mangle import CONTROLS, TYPES, core
from tools import bytes_of, facts_of, put, refused_whole, same, words_of_numbers

BOARDS = (("stm32", make.STM32), ("rp2350", make.RP2350), ("multi", make.MULTI), ("mixed", make.MIXED))
LINES = ("cs1", "cs2", "cs3", "x1", "x2")
BY_SET_0 = "--by-set-0"


def read_byte(at, file, i, address, levels, rom):
    got = dict(facts_of(at, file, "byte", str(i), hex(address), levels))
    same(int(got["byte"]), rom.text()[address], "byte %d of %s" % (address, rom.name))
    raw = bytes_of(at, file, "raw", str(i))
    same(raw[int(got["stored.offset"])], int(got["stored.byte"]), "stored byte of %s" % rom.name)


@functools.cache
def offsets_of(name, roms, kind, high):
    """Of every address of a type a number, and where its byte is stored by that type and a ROM count; `high` names the lines that are."""
    pins = dict(BOARDS)[name].pins
    addr = [pins.on_board(p) for p in pins.addr] + [make.NO_PIN] * (16 - len(pins.addr))
    control = dict(zip(CONTROLS, map(pins.on_board, (*pins.cs, *pins.x, pins.ce, pins.oe))))
    levels = [line in high for line in LINES]
    return [core(pins.rom_pins, addr, control, roms, kind, address, levels) for address in range(TYPES[kind][0] + 1)]


def one_read(at, name, board, i, is_old, high):
    """read, and byte at some addresses, against the generator's bytes at the offsets of the model. The old read goes by set 0."""
    by, words = (0 if is_old else i), [",".join(line + "=1" for line in high) or "low"] + ([BY_SET_0] if is_old else [])
    file, what = "samples/%s.img" % name, "%s set %d, %s" % (name, i, " ".join(words))
    stored, shown = board.pins.set_data(board.sets[i]), {board.pins.stored(byte): byte for byte in range(256)}
    offsets = offsets_of(name, len(board.sets[by].roms), board.sets[by].roms[0].kind, high)
    number = next((n or 81 for n, offset in offsets if n or offset >= len(stored)), 0)
    if number:
        refused_whole(at, number, words_of_numbers()[number], file, "read", str(i), *words)
        return
    same(bytes_of(at, file, "read", str(i), *words), bytes(shown[stored[offset]] for _, offset in offsets), what)
    for address in (5, len(offsets) - 1):
        offset = offsets[address][1]
        wanted = {"set": i, "by_set": by, "address": address, "byte": shown[stored[offset]], "stored.byte": stored[offset], "stored.offset": offset}
        same(facts_of(at, file, "byte", str(i), str(address), *words), [(key, str(n)) for key, n in wanted.items()], what)


def by_either(at):
    """Every set of every sample, by its own ROMs and by set 0's, with several levels; of 28-pin types no chip select has an input bit."""
    for name, board in BOARDS:
        for i in range(len(board.sets)):
            is_wide = TYPES[board.sets[i].roms[0].kind][0] > 8191
            for high in ((), ("cs1", "x2")) if is_wide else ((), ("cs1",), ("cs2",), ("x1",), ("cs1", "x2")):
                one_read(at, name, board, i, False, high)
                one_read(at, name, board, i, True, high)


def mixed(at):
    """Set 1 is read whole by its own type. By set 0's it has a fourth of its addresses, and CS1 chooses which bytes they are."""
    file, (small, large) = "samples/mixed.img", (s.roms[0].text() for s in make.MIXED.sets)
    same((len(small), len(large)), (8192, 32768), "texts")
    same(bytes_of(at, file, "read", "0"), small, "mixed read 0")
    same(bytes_of(at, file, "read", "0", BY_SET_0), small, "mixed read 0 by set 0")
    same(bytes_of(at, file, "read", "0", "cs1=1"), b"\xff" * 8192, "mixed read 0, not chosen")
    for levels in ("low", "cs1=1"):
        same(bytes_of(at, file, "read", "1", levels), large, "mixed read 1, " + levels)
    same(bytes_of(at, file, "read", "1", BY_SET_0), large[:8192], "mixed read 1 by set 0")
    same(bytes_of(at, file, BY_SET_0, "read", "1", "cs1=1"), large[8192:16384], "mixed read 1 by set 0, CS1 high")


def reads(at):
    for name, board in BOARDS:
        for i, s in enumerate(board.sets):
            same(bytes_of(at, "samples/%s.img" % name, "raw", str(i)), board.pins.set_data(s), "%s raw %d" % (name, i))
    mixed(at)
    by_either(at)
    same(bytes_of(at, "samples/stm32.img", "read", "0"), make.STM32.sets[0].roms[0].text(), "stm32 read 0")
    same(bytes_of(at, "samples/multi.img", "read", "1"), make.MULTI.sets[1].roms[0].text(), "multi read 1")
    # CS2 has A11's pin, which a 2332 would need for its second half.
    text = make.RP2350.sets[2].roms[0].text()
    same(bytes_of(at, "samples/rp2350.img", "read", "2"), text[:2048] * 2, "rp2350 read 2")
    same(bytes_of(at, "samples/rp2350.img", "read", "2", "cs2=1"), text[2048:] * 2, "rp2350 read 2, CS2 high")
    for i in (0, 1, 3, 4):
        rom = make.RP2350.sets[i].roms[0]
        same(bytes_of(at, "samples/rp2350.img", "read", str(i), "low"), rom.text(), "rp2350 read %d" % i)
        read_byte(at, "samples/rp2350.img", i, 0x7FF, "low", rom)
    # Each ROM of a multi-ROM set answers where its own select is low and the others are high.
    levels = ("x1=1,x2=1", "cs1=1,x1=0,x2=1", "x1=1,cs1=1")
    for rom, line in zip(make.MULTI.sets[0].roms, levels):
        same(bytes_of(at, "samples/multi.img", "read", "0", line), rom.text(), "multi read " + rom.name)
        read_byte(at, "samples/multi.img", 0, 1029, line, rom)


def settings(at):
    r = make.RP2350
    wanted = dict(board_facts(r, make.SAME))
    moved = make.Board(0x18000000, *(getattr(r, n) for n in "version line storage mhz flags counting date revision extra pins sets".split()))
    got = dict(facts_of(at, put(at, "moved.img", moved.image().bytes), "--cs0-base", "0x18000000"))
    for key, value in wanted.items():
        is_data = re.fullmatch(r"set\.\d\.data", key)
        same(got[key], value.replace("0x10", "0x18", 1) if is_data else value, "moved " + key)
    # 256 bytes in front: the base is lower, the info header farther in.
    got = dict(facts_of(at, "--info-offset", "768", put(at, "front.img", bytes(256) + changed()), "--cs0-base", "0x0fffff00"))
    wanted["dump.bytes"] = str(len(changed()) + 256)
    same(got, wanted, "256 bytes in front")
    stm = make.STM32
    moved = make.Board(0x00100000, *(getattr(stm, n) for n in "version line storage mhz flags counting date revision extra pins sets".split()))
    file = put(at, "stm.img", moved.image().bytes)
    same(bytes_of(at, file, "--flash-base", "1048576", "read", "0"), stm.sets[0].roms[0].text(), "an STM32 board at another base")
