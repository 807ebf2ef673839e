#!/usr/bin/env python3
"""What examples/c/board.c and examples/rust/board.rs print of rp2350.img, from what make.py put into it.

    python3 samples/example.py >tests/data/example.txt
"""
import make

board = make.RP2350
print("firmware %d.%d.%d" % board.version[:3])
for i, s in enumerate(board.sets):
    # the socket sees what the ROM holds
    front, seen = (" ".join("%02x" % b for b in data[:4]) for data in (board.pins.set_data(s), s.roms[0].text()))
    roms = "%d ROM%s" % (len(s.roms), "" if len(s.roms) == 1 else "s")
    name = s.roms[0].name
    print("set %d: %d bytes, %s, %s (%d characters), starts %s, at its socket %s" % (i, s.size, roms, name, len(name), front, seen))
for later, earlier in sorted(make.SAME.items(), key=lambda p: (p[1], p[0])):
    print("sets %d and %d are the same" % (earlier, later))
print("%d bytes read as stored, %d at the sockets" % (4 * len(board.sets), 4 * len(board.sets)))
