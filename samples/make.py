#!/usr/bin/env python3
"""Makes the samples beside this file: small dumps of the flash of a One ROM board, and a record of a running one's RAM.

    python3 samples/make.py            writes them
    python3 samples/make.py --check    says whether the files are what it makes

stm32.img     an STM32 board, firmware 0.4.2, one set
rp2350.img    an RP2350 board, firmware 0.6.1, five sets: 0 and 3 are the same with equal names, 1 and 4 under different names
multi.img     an RP2350 board whose set 0 has three ROMs, chosen by CS1, X1 and X2
mixed.img     an STM32 board, firmware 0.5.2, for ROMs of 28 pins: set 0 a 2364, set 1 a 27256
damaged.img   a copy of rp2350.img with a fault in each of several places
runtime.bin   a runtime record, for the program `runtime`

Each ROM holds text, "genoa.bin panel 00" and so on, so that a read that goes wrong is seen at once.
The offsets within the records are those of document 01.
"""
import os
import struct
import sys

HERE = os.path.dirname(os.path.abspath(__file__))
NONE = 0xFFFFFFFF  # a pointer that leads nowhere
NO_PIN = 255

# ROM types by their numbers, and how many bytes a ROM of the type has.
ROM_2316, ROM_2332, ROM_2364, ROM_27256 = 0, 1, 2, 12
BYTES = {ROM_2316: 2048, ROM_2332: 4096, ROM_2364: 8192, ROM_27256: 32768}
# The sets that were made, by all that decides their bytes.
SETS = {}
# Chip-select states.
LOW, HIGH, UNUSED = 0, 1, 2


class Rom:
    def __init__(self, name, kind, cs=(LOW, LOW, LOW)):
        self.name, self.kind, self.cs = name, kind, cs

    def text(self):
        """What the ROM holds: numbered lines."""
        lines = "".join("%s panel %02d\n" % (self.name, i) for i in range(BYTES[self.kind]))
        return lines.encode()[: BYTES[self.kind]]


class RomSet:
    def __init__(self, roms, size, serve, state=UNUSED):
        self.roms, self.size, self.serve, self.state = roms, size, serve, state


class Pins:
    """Which pin each line is on. Pins of the address lines and controls count from `first`; `rom_pins` is how many the ROM has."""

    def __init__(self, ports, data, first, addr, cs, x=(NO_PIN, NO_PIN), ce=NO_PIN, oe=NO_PIN, status=NO_PIN, rom_pins=24):
        self.ports, self.data, self.first, self.addr, self.cs, self.x, self.status = ports, data, first, addr, cs, x, status
        self.ce, self.oe, self.rom_pins = ce, oe, rom_pins

    def on_board(self, pin):
        return NO_PIN if pin == NO_PIN else self.first + pin

    def record(self):
        """88 bytes."""
        p = bytearray([NO_PIN] * 88)
        p[0:5] = bytes(self.ports)
        p[5] = self.rom_pins
        p[8:16] = bytes(self.data)
        p[16:32] = bytes(self.on_board(pin) for pin in self.addr + [NO_PIN] * (16 - len(self.addr)))
        p[36:39] = bytes(self.on_board(pin) for pin in self.cs)
        p[42:46] = bytes(self.on_board(pin) for pin in (*self.x, self.ce, self.oe))
        p[60] = self.status
        p[63] = 0  # not extended
        return bytes(p)

    def stored(self, byte):
        """The byte as it is stored: its bit i lies at data pin i."""
        return sum((byte >> i & 1) << pin for i, pin in enumerate(self.data))

    def address(self, offset):
        """The address that the address lines have at an offset of a set."""
        return sum((offset >> pin & 1) << i for i, pin in enumerate(self.addr))

    def is_low(self, offset, pin):
        return pin == NO_PIN or offset >> pin & 1 == 0

    def chosen(self, roms, offset):
        """The ROM of a set that is chosen at an offset: all selects are active low, and the first one counts."""
        if len(roms) == 1:
            return roms[0]
        for rom, pin in zip(roms, (self.cs[0], self.x[0], self.x[1])):
            if self.is_low(offset, pin):
                return rom
        return None

    def set_data(self, rom_set):
        """The set as it is stored. It is made once: most boards of the tests differ elsewhere."""
        roms = tuple((rom.name, rom.kind) for rom in rom_set.roms)
        key = tuple(self.data), tuple(self.addr), self.cs[0], self.x, roms, rom_set.size
        if key not in SETS:
            SETS[key] = self.made_data(rom_set)
        return SETS[key]

    def made_data(self, rom_set):
        texts = {rom: rom.text() for rom in rom_set.roms}
        data = bytearray([0xFF] * rom_set.size)
        for offset in range(rom_set.size):
            rom = self.chosen(rom_set.roms, offset)
            address = self.address(offset)
            if rom is not None and address < BYTES[rom.kind]:
                data[offset] = self.stored(texts[rom][address])
        return bytes(data)


class Image:
    """Bytes that grow; `put` answers the address at which they will stand."""

    def __init__(self, base):
        self.base, self.bytes = base, bytearray([0xFF] * 512)

    def put(self, data):
        self.bytes += b"\xff" * (-len(self.bytes) % 4)
        at = self.base + len(self.bytes)
        self.bytes += data
        return at

    def string(self, text):
        return self.put(text.encode() + b"\0")

    def write(self, at, data):
        self.bytes[at - self.base : at - self.base + len(data)] = data


class Board:
    def __init__(self, base, version, line, storage, mhz, flags, counting, date, revision, extra, pins, sets):
        self.base, self.version, self.line, self.storage, self.mhz = base, version, line, storage, mhz
        self.flags, self.counting, self.date, self.revision = flags, counting, date, revision
        self.extra, self.pins, self.sets = extra, pins, sets
        self.commit, self.boot_config = b"7c3f21a\0", (0, 1, 2, 3)

    def has_metadata(self):
        return self.version >= (0, 5, 0, 0)

    def image(self):
        """Where things stand is kept in self.at, for whoever wants to damage them."""
        image, self.at = Image(self.base), {}
        header = image.put(bytes(64))
        self.at["header"] = header
        date, revision = image.string(self.date), image.string(self.revision)
        self.at["pins"] = pins = image.put(self.pins.record())
        extra = image.put(self.extra_record())
        count, sets = len(self.sets), self.put_sets(image)
        if self.has_metadata():
            sets = image.put(self.metadata_record(count, sets))
            count = 0
        image.write(header, self.header_record(date, revision, count, sets, pins, extra))
        for i, rom_set in enumerate(self.sets):
            at = image.put(self.pins.set_data(rom_set))
            image.write(self.at["set", i], struct.pack("<I", at))
        return image

    def header_record(self, date, revision, count, sets, pins, extra):
        h = b"SDRR" + struct.pack("<4H", *self.version)
        h += struct.pack("<I", date) + self.commit + struct.pack("<I", revision)
        h += struct.pack("<3H", self.line, self.storage, self.mhz)
        h += bytes(self.flags) + bytes([count, self.counting, 0])
        h += struct.pack("<II", sets, pins) + bytes(self.boot_config) + struct.pack("<II", extra, NONE)
        assert len(h) == 64
        return h

    def extra_record(self):
        """256 bytes: RTT pointer, DFU flag, USB port, VBUS pin, PIO default, runtime pointer."""
        return struct.pack("<IBBBBI", *self.extra).ljust(256, b"\xff")

    def metadata_record(self, count, sets):
        return (b"ONEROM_METADATA\0" + struct.pack("<IBxxxI", 1, count, sets)).ljust(256, b"\xff")

    def put_sets(self, image):
        """The sets' records one after another; their data pointers are filled in later."""
        tables = [self.put_roms(image, i) for i in range(len(self.sets))]
        # From 0.6.0 a record with extra byte 1 is 64 bytes long and has two pointers more, here to nothing.
        has_more = self.version >= (0, 6, 0, 0)
        records = b""
        offsets = []
        for rom_set, table in zip(self.sets, tables):
            record = struct.pack("<IIIBBBB", 0, rom_set.size, table, len(rom_set.roms), rom_set.serve, rom_set.state, int(has_more))
            offsets.append(len(records))
            records += (record + struct.pack("<II", NONE, 0)).ljust(64, b"\xff") if has_more else record
        first = image.put(records)
        for i, offset in enumerate(offsets):
            self.at["set", i] = first + offset
        return first

    def put_roms(self, image, i):
        """A set's ROM infos with their names, then the table of pointers to them."""
        pointers = []
        for k, rom in enumerate(self.sets[i].roms):
            name = image.string(rom.name)
            self.at["name", i, k] = name
            pointers.append(image.put(bytes([rom.kind, *rom.cs]) + struct.pack("<I", name)))
            self.at["rom", i, k] = pointers[-1]
        return image.put(b"".join(struct.pack("<I", p) for p in pointers))


STM32 = Board(
    base=0x08000000,
    version=(0, 4, 2, 11),
    line=2,  # STM32F411
    storage=4,  # E
    mhz=100,
    flags=(0, 1, 0, 0, 1, 1, 0),  # SWD, LED and boot logging on, and so names are stored
    counting=0,
    date="2025-03-08 17:20",
    revision="ice-24-d",
    extra=(0x20000400, 0, 0, NO_PIN, 0, 0x20000000),
    pins=Pins((1, 3, 3, 2, 2), [7, 0, 6, 1, 5, 2, 4, 3], 0, [5, 4, 6, 7, 3, 2, 1, 0, 8, 9, 11, 10], (13, 12, NO_PIN), status=15),
    sets=[RomSet([Rom("jib.bin", ROM_2332, (LOW, LOW, UNUSED))], 4096, 1)],
)

RP2350 = Board(
    base=0x10000000,
    version=(0, 6, 1, 4),
    line=5,  # RP2350
    storage=7,  # 2 MB
    mhz=150,
    flags=(1, 0, 0, 1, 1, 0, 0),  # overclock, bootloader and LED on
    counting=1,
    date="2025-09-12 10:41",
    revision="fire-24-a",
    extra=(0x20001000, 1, 5, 24, 1, 0x20002000),
    pins=Pins((5, 5, 5, 5, 5), [3, 2, 1, 0, 7, 6, 5, 4], 8, [7, 6, 5, 4, 3, 2, 1, 0, 10, 9, 8, 11], (13, 11, 12), status=29),
    sets=[
        RomSet([Rom("genoa.bin", ROM_2316)], 2048, 1),
        RomSet([Rom("mainsail.bin", ROM_2316)], 2048, 0),
        RomSet([Rom("spinnaker.bin", ROM_2332, (LOW, HIGH, UNUSED))], 4096, 1),  # CS2 has A11's pin, so a read sees one half twice
        RomSet([Rom("genoa.bin", ROM_2316)], 2048, 1),
        RomSet([Rom("mizzen.bin", ROM_2316)], 2048, 0),
    ],
)
# Sets that are the same, as the bench says it: size, ROM count, serving and types.
SAME = {3: 0, 4: 1}

MULTI = Board(
    base=0x10000000,
    version=(0, 6, 3, 0),
    line=5,
    storage=7,
    mhz=150,
    flags=(0, 0, 0, 1, 1, 0, 0),
    counting=0,
    date="2025-11-02 08:05",
    revision="fire-24-b",
    extra=(0x20001000, 1, 5, 24, 1, 0x20002000),
    pins=Pins((5, 5, 5, 5, 5), [0, 1, 2, 3, 4, 5, 6, 7], 8, [10, 9, 8, 7, 6, 5, 4, 3, 2, 1, 0], (13, 14, 15), x=(11, 12), status=29),
    sets=[
        RomSet([Rom(n, ROM_2316, (LOW, UNUSED, UNUSED)) for n in ("foresail.bin", "topsail.bin", "staysail.bin")], 16384, 2, LOW),
        RomSet([Rom("jib.bin", ROM_2316)], 2048, 1),
    ],
)

# One pin is CS1 for a 2364 and A13 for a 27256: address 5 with CS1 high is at offset 8197 of set 0, and at offset 5 of set 1. Set 0 has room for both
# levels of CS1. CE and OE are at a pin of their own, which no address raises.
MIXED = Board(
    base=0x08000000,
    version=(0, 5, 2, 7),
    line=1,  # STM32F405
    storage=6,  # G
    mhz=168,
    flags=(0, 1, 0, 0, 1, 0, 0),
    counting=0,
    date="2025-06-21 09:14",
    revision="ice-28-a",
    extra=(0x20000400, 0, 0, NO_PIN, 0, 0x20000000),
    pins=Pins((1, 3, 3, 2, 2), [4, 6, 0, 2, 7, 1, 3, 5], 0, list(range(15)), (13, NO_PIN, NO_PIN), ce=15, oe=15, status=9, rom_pins=28),
    sets=[
        RomSet([Rom("lugsail.bin", ROM_2364, (LOW, UNUSED, UNUSED))], 16384, 1),
        RomSet([Rom("g\u00e9nois.bin", ROM_27256, (UNUSED, UNUSED, UNUSED))], 32768, 1),
    ],
)


def damaged():
    """rp2350.img with faults, and what the bench is to say of each: a key and its value."""
    image = RP2350.image()
    at = RP2350.at
    image.write(at["header"] + 24, struct.pack("<I", image.base - 1))  # the revision's pointer, below the base: 3
    image.write(at["header"] + 56, struct.pack("<I", image.base + len(image.bytes) - 255))  # extra info, a byte too few: 2
    image.write(at["pins"], bytes([9]))  # a port that is none: 50
    image.write(at["name", 1, 0], b"main\xff")  # no UTF-8: 21
    image.write(at["rom", 3, 0] + 4, struct.pack("<I", NONE))  # a name's pointer that leads nowhere: 1
    image.write(at["set", 4], struct.pack("<I", image.base + len(image.bytes) - 2047))  # a set's bytes, one too few: 2
    return image


DAMAGE = {
    "hw_rev.number": "3",
    "extra.number": "2",
    "pins.number": "50",
    "set.1.rom.0.name.number": "21",
    "set.3.rom.0.name.number": "1",
    "set.4.data.number": "2",
    "set.3.same_as.names": "differ",
    "set.4.same_as.bytes": "not_held",
}


def crowded(sets, roms):
    """A board of so many sets with so many ROMs each, all of them the same ROM; kept in no file."""
    board = Board(RP2350.base, (0, 5, 1, 0), 5, 7, 150, (0,) * 7, 0, "-", "-", RP2350.extra, RP2350.pins, [])
    image = board.image()
    rom = image.put(bytes([ROM_2316, LOW, LOW, LOW]) + struct.pack("<I", NONE))
    table = image.put(struct.pack("<I", rom) * roms)
    records = image.put(struct.pack("<IIIBBBB", rom, 4, table, roms, 1, UNUSED, 0) * sets)
    metadata = image.put(board.metadata_record(sets, records))
    image.write(board.at["header"] + 44, struct.pack("<I", metadata))
    return image


def boards():
    return {"stm32": STM32.image(), "rp2350": RP2350.image(), "multi": MULTI.image(), "mixed": MIXED.image(), "damaged": damaged()}


def runtime_record():
    """Document 01's R1: its bit mode, 3, is none that is known."""
    head = struct.pack("<4s4B3I4x", b"sdrr", 36, 1, 2, 1, 5, 0x20000000, 65536)
    return head + struct.pack("<4B3H2B", 1, 0, 2, 11, 150, 300, 300, 1, 3)


def main():
    files = {name + ".img": bytes(image.bytes) for name, image in boards().items()}
    files["runtime.bin"] = runtime_record()
    for name, data in files.items():
        path = os.path.join(HERE, name)
        if "--check" not in sys.argv:
            open(path, "wb").write(data)
        elif open(path, "rb").read() != data:
            sys.exit("%s is not what make.py makes" % name)


if __name__ == "__main__":
    main()
