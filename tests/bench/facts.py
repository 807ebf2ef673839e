"""A script's facts of each sample, and of a board whose texts are not ASCII, are what was put into it."""
import struct

import make
from made import accented
from tools import expect, facts_of, same

# By number, as the Rust prints them.
TYPES = (
    "2316|2332|2364|23128|23256|23512|2704|2708|2716|2732|2764|27128|27256|27512|231024|27C010|27C020|27C040|27C080|27C400|6116 (RAM)|"
    "27C301|System Plugin|User Plugin|PIO Plugin|SST39SF040|28C16|28C64|28C256|28C512|23QL512|23QL384|23C1001|27C200"
).split("|")
LINES = ["STM32F401DE", "STM32F405", "STM32F411", "STM32F446", "STM32F401BC", "RP2350"]
STORAGES = [("8", "64"), ("B", "128"), ("C", "256"), ("D", "384"), ("E", "512"), ("F", "768"), ("G", "1024"), ("2MB", "2048")]
FLAGS = ["overclock", "swd", "preload", "bootloader", "led", "boot_logging", "mco"]
STATE = ["active_low", "active_high", "not_used"]
PORT = ["none", "A", "B", "C", "D", "0"]


def equal_or_not(one, other):
    return "equal" if one == other else "differ"


def characters(text):
    """How a person is told the number of a text's characters."""
    return "1 character" if len(text) == 1 else "%d characters" % len(text)


def set_facts(board, image, i, s, same_as):
    key = "set.%d." % i
    address = struct.unpack_from("<I", image.bytes, board.at["set", i] - board.base)[0]
    facts = [("size", s.size), ("data", "0x%08x" % address), ("data.number", 0), ("serve", s.serve), ("multi_rom_state", s.state)]
    facts += [("config", "0x00000000"), ("overrides", "0x00000000"), ("roms", len(s.roms))]
    for k, rom in enumerate(s.roms):
        facts.append(("rom.%d.type" % k, TYPES[rom.kind]))
        facts += [("rom.%d.cs%d" % (k, n + 1), STATE[c]) for n, c in enumerate(rom.cs)]
        facts += [("rom.%d.name.number" % k, 0), ("rom.%d.name.text" % k, rom.name), ("rom.%d.name.width" % k, len(rom.name))]
    if same_as is not None:
        other = board.sets[same_as]
        names, data = ([rom.name for rom in a.roms] for a in (s, other)), (board.pins.set_data(a) for a in (s, other))
        facts += [("same_as", same_as), ("same_as.names", equal_or_not(*names)), ("same_as.bytes", equal_or_not(*data))]
    return [(key + name, str(value)) for name, value in facts]


def pin_facts(pins):
    none = [make.NO_PIN]
    addr = [pins.on_board(p) for p in pins.addr]
    facts = [("rom_pins", pins.rom_pins)] + list(zip(["port.data", "port.addr", "port.cs", "port.sel", "port.status"], [PORT[p] for p in pins.ports]))
    facts += [("data", pins.data), ("addr", addr + none * (16 - len(addr)))]
    facts += [("cs%d" % (n + 1), pins.on_board(p)) for n, p in enumerate(pins.cs)]
    facts += [(name, pins.on_board(p)) for name, p in zip(("x1", "x2", "ce", "oe"), (*pins.x, pins.ce, pins.oe))] + [("status", pins.status)]
    facts += [("sel", none * 7), ("x_pull", 255), ("sel_pull", 255), ("swclk", 255), ("swdio", 255), ("extended", 0)]
    facts += [("data2", [0] * 8), ("addr2", [0] * 16)]
    return [("pins." + name, " ".join(map(str, v)) if isinstance(v, list) else str(v)) for name, v in facts]


def board_facts(board, same_as):
    image = board.image()
    version, rtt, dfu, port, vbus, pio, runtime = board.version, *board.extra
    facts = [("dump.bytes", len(image.bytes)), ("firmware.version", "%d.%d.%d" % version[:3]), ("firmware.build", version[3])]
    facts += [("mcu.line", LINES[board.line]), ("mcu.storage", STORAGES[board.storage][0]), ("mcu.kib", STORAGES[board.storage][1])]
    facts += [("mcu.mhz", board.mhz), ("firmware.commit", board.commit.rstrip(b"\0").decode())]
    for key, text in (("build_date", board.date), ("hw_rev", board.revision)):
        facts += [(key + ".number", 0), (key + ".text", text), (key + ".width", len(text))]
    facts += [("flag." + name, bit) for name, bit in zip(FLAGS, board.flags)] + [("flag.access_count", board.counting)]
    facts += [("boot_config", " ".join(map(str, board.boot_config)))]
    facts += [("extra.number", 0), ("extra.usb_dfu", dfu), ("extra.usb_port", PORT[port]), ("extra.vbus_pin", vbus)]
    facts += [("extra.pio_default", pio if version >= (0, 6, 0, 0) else "not_given")]
    facts += [("extra.rtt", "0x%08x" % rtt), ("extra.runtime", "0x%08x" % runtime), ("pins.number", 0)]
    facts = [(key, str(value)) for key, value in facts] + pin_facts(board.pins)
    facts += [("metadata.number", "0" if board.has_metadata() else "not_looked_for"), ("sets.number", "0")]
    facts += [("sets.count", str(len(board.sets))), ("sets.served", str(len(board.sets)))]
    for i, s in enumerate(board.sets):
        facts += set_facts(board, image, i, s, same_as.get(i))
    return facts


def facts(at):
    for name, board, same_as in (("stm32", make.STM32, {}), ("rp2350", make.RP2350, make.SAME), ("multi", make.MULTI, {}), ("mixed", make.MIXED, {})):
        same(facts_of(at, "samples/%s.img" % name), board_facts(board, same_as), name)
    board = accented()
    same(facts_of(at, "made/accented.img"), board_facts(board, {i: 0 for i in range(1, len(board.sets))}), "accented")
    damaged = dict(facts_of(at, "samples/damaged.img"))
    for key, value in dict(board_facts(make.RP2350, make.SAME)).items():
        if key in make.DAMAGE:
            same(damaged[key], make.DAMAGE[key], "damaged " + key)
        elif any(key.startswith(item) for item in ("hw_rev.", "extra.", "pins.", "set.1.rom.0.name.", "set.3.rom.0.name.")):
            expect(key not in damaged, "damaged: " + key + " is said of what is refused")
        elif key != "set.4.data":
            same(damaged[key], value, "damaged " + key)
