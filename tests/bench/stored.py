"""Outputs on samples and on bad input, as in tests/data/bench; and what README.md and docs/BENCH.md show of them."""
import os

from tools import STORED, TOP, expect, run, same

# Outputs that docs/BENCH.md shows, each with its command before it.
IN_BENCH = ("mixed_byte.txt", "mixed_byte_by_set_0.txt")


def shown(at, words):
    out, err = run(at, *words)
    text = b"$ bench " + " ".join(words).encode() + b"\n" + out
    return text + (b"-- standard error\n" + err if err else b"")


def stored(at, is_written=False):
    names = sorted(os.listdir(STORED))
    expect(len(names) > 60, "stored outputs are missing")
    for name in names:
        path = os.path.join(STORED, name)
        wanted = open(path, "rb").read()
        words = wanted.split(b"\n", 1)[0].decode().split()[2:]
        got = shown(at, words)
        if is_written:
            open(path, "wb").write(got)
        else:
            same(got, wanted, name)


def text_of(*path):
    with open(os.path.join(TOP, *path), encoding="utf-8") as f:
        return f.read()


def is_shown(page, wanted):
    block = "".join("    " + line + "\n" if line else "\n" for line in wanted.split("\n")[:-1])
    expect(block in text_of(page), "%s does not show\n%s" % (page, block))


def readme(at):
    is_shown("README.md", text_of(STORED, "sample.txt").split("\n", 1)[1])
    is_shown("README.md", text_of("tests", "data", "example.txt"))
    is_shown("README.md", text_of("crates", "runtime", "stdout"))
    for name in IN_BENCH:
        is_shown("docs/BENCH.md", text_of(STORED, name))
