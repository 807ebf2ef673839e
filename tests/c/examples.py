#!/usr/bin/env python3
"""The examples on names and files that are out of the ordinary: python3 tests/c/examples.py PROGRAM"""
import os
import subprocess
import sys
import tempfile

sys.dont_write_bytecode = True
TOP = os.path.dirname(os.path.dirname(os.path.dirname(os.path.abspath(__file__))))
sys.path[:0] = [os.path.join(TOP, "samples"), os.path.join(TOP, "tests", "bench")]

import made  # noqa: E402
import make  # noqa: E402
from odd_names import BYTES, NAMES  # noqa: E402


def same(got, wanted, what):
    if got != wanted:
        sys.exit("%s:\n  got    %r\n  wanted %r" % (what, got, wanted))


def run(program, *words):
    done = subprocess.run([program, *words], capture_output=True, timeout=60)
    return done.returncode, done.stdout.decode(), done.stderr.decode()


def put(at, name, data):
    path = os.path.join(at, name)
    with open(path, "wb") as f:
        f.write(data)
    return path


def names(program, at):
    board = made.one_rom_sets([name for name, _ in NAMES], [1] * len(NAMES))
    status, out, err = run(program, put(at, "names.img", board))
    got = [line.split(" bytes, ")[1].rsplit(", starts ")[0] for line in out.split("\n") if line.startswith("set ")]
    # the width is the name's as it is stored: Python counts code points too
    same((status, err, got), (0, "", ["1 ROM, %s (%d character%s)" % (shown, len(name), "" if len(name) == 1 else "s") for name, shown in NAMES]), "names")


def counts(program, at):
    board = made.board_of([make.RomSet([], 64, 1), make.RomSet([make.Rom("jib.bin", make.ROM_2316)] * 2, 2048, 1)])
    status, out, err = run(program, put(at, "counts.img", bytes(board.image().bytes)))
    lines = [line for line in out.split("\n") if line.startswith("set ")]
    # each job by its own count
    same(out.rstrip("\n").split("\n")[-1], "8 bytes read as stored, 0 at the sockets", "what refused reads count")
    got = [line.rsplit(", starts ")[0] for line in lines]
    same((status, err, got), (0, "", ["set 0: 64 bytes, 0 ROMs, (no name)", "set 1: 2048 bytes, 2 ROMs, jib.bin (7 characters)"]), "ROMs are counted")
    # each set by its own ROMs: none, and two on a board that has no X1 and X2
    got = [line.split(", at its socket ")[1] for line in lines]
    same(got, ["refused 74: the set that governs has no ROM", "refused 72: X1 or X2 is not on one of the sixteen pins that are read"], "refused at the socket")


def refusals(program, at):
    same(run(program), (2, "", "usage: board DUMP\n"), "no file")
    for name, shown, why in (
        (at, at, "Is a directory"),
        (at + "/none.img", at + "/none.img", "No such file or directory"),
        *((os.path.join(at.encode(), name), at + "/" + shown, "No such file or directory") for name, shown in BYTES),
        *((os.path.join(at, name), at + "/" + shown, "No such file or directory") for name, shown in NAMES),
        (put(at, "empty.img", b""), at + "/empty.img", "refused 2: not all of it lies within the image"),
        (put(at, "zeros.img", bytes(1024)), at + "/zeros.img", "refused 10: no info header (SDRR) at the info offset"),
    ):
        status, out, err = run(program, name)
        # Rust's own words for an error end in its number
        same((status, out, err.split(" (os error ")[0].rstrip("\n")), (1, "", "%s: %s" % (shown, why)), "refusal")


def main():
    with tempfile.TemporaryDirectory() as at:
        for part in (names, counts, refusals):
            part(sys.argv[1], at)


if __name__ == "__main__":
    main()
