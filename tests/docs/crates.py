#!/usr/bin/env python3
"""Holds crates.txt and the README's table to each other: a crate uses only what stands above it, and every crate has its row."""
import os
import re
import sys

ROOT = os.path.join(os.path.dirname(os.path.abspath(__file__)), "..", "..")
KIT = {"arrayvec"}


def text(name):
    with open(os.path.join(ROOT, name), encoding="utf-8") as f:
        return f.read()


def main():
    bad, above = [], []
    for line in text("crates.txt").split("\n"):
        line = line.split("#")[0].strip()
        if not line:
            continue
        name, uses = line.split(":")
        name = name.split()[0]
        for use in uses.split():
            if use not in KIT and use not in above:
                bad.append(f"{name} uses {use}, which does not stand above it")
        above.append(name)
    table = text("README.md").split("## The crates")[1]
    rows = set(re.findall(r"`(\w+)`", "".join(re.findall(r"(?m)^\|[^|]*\|", table))))
    bad += [f"{name} has no row in the README's table" for name in above if name not in rows]
    bad += [f"the README's table has {name}, which crates.txt has not" for name in sorted(rows - set(above))]
    for b in bad:
        print(b)
    return 1 if bad else 0


if __name__ == "__main__":
    sys.exit(main())
