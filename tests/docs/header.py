#!/usr/bin/env python3
"""Holds the constants of include/onerom.h to the definitions, to examples/rust/onerom.rs, and their words to docs/BENCH.md.

Names are compared without case and underscores: ONEROM_TYPE_SYSTEM_PLUGIN is the definition's SystemPlugin.
"""
import glob
import os
import re
import sys

ROOT = os.path.join(os.path.dirname(os.path.abspath(__file__)), "..", "..")
# a definition that gives each case its number; how its cases' names begin, and how the header's do
DEFINED = (
    ("line_number", "", "LINE_"),
    ("storage_number", "Storage", "STORAGE_"),
    ("port_number", "Port", "PORT_"),
    ("rom_type_number", "", "TYPE_"),
    ("set_place", "", "SET_"),
    ("rom_place", "", "ROM_"),
)
# constants that the Rust wrapper has too
IN_RUST = ("LINE_", "STORAGE_", "PORT_", "PIO_", "SET_", "ROM_", "PART_", "SERVE_", "STATE_", "TYPE_", "LEVEL", "LOW", "HIGH", "ITEM_", "ACCEPTED",
           "REFUSED_", "MAX_", "JOBS", "NO_NAME", "FLASH_BASE", "CS0_BASE", "INFO_OFFSET")
# constants that a crate owns
OWNED = (("PART_WORDS", "text"), ("JOBS", "job_counts"))


def text(name):
    with open(os.path.join(ROOT, name), encoding="utf-8") as f:
        return f.read()


def plain(name):
    return name.replace("_", "").lower()


def number(digits):
    return int(digits.replace("_", "").rstrip("u"), 0)


def in_header(header):
    found = re.findall(r"(?m)^\s*ONEROM_(\w+) = (\w+)", header) + re.findall(r"(?m)^#define ONEROM_(\w+) (\w+)", header)
    return {name: number(value) for name, value in found}


def in_rust(rust):
    return {name: number(value) for name, value in re.findall(r"(?m)^pub const (\w+): \w+ = (\w+);", rust)}


def definitions():
    return "".join(text(path) for path in sorted(glob.glob(os.path.join(ROOT, "crates/*/specs/*.antt"))))


def defined(specs, function, front):
    """The cases of a definition, each with its number."""
    cases = re.findall(r"(?m)^%s \w+\.(\w+) = (\d+)$" % function, specs)
    return {plain(case[len(front):] if case.startswith(front) else case): int(n) for case, n in cases}


def words_of_bench():
    """The words of BENCH.md's table below 100, with the library's word for a dump, and without the bench's own limits."""
    rows = re.findall(r"(?m)^\| (\d+) \| (.*) \|$", text("docs/BENCH.md").split("## The numbers in words")[1])
    return {int(n): re.sub(r" \((255|4,096)\)$", "", words.replace("dump", "image")) for n, words in rows if int(n) < 100}


def differences(what, one, other):
    for key in sorted(set(one) | set(other), key=str):
        if one.get(key) != other.get(key):
            yield "%s: %s is %s here and %s there" % (what, key, one.get(key), other.get(key))


def main():
    header, rust = text("include/onerom.h"), text("examples/rust/onerom.rs")
    c, r = in_header(header), in_rust(rust)
    specs, bad = definitions(), []
    for function, front, prefix in DEFINED:
        cases = defined(specs, function, front)
        held = {plain(k[len(prefix):]): v for k, v in c.items() if k.startswith(prefix) and k not in ("SET_WORDS", "ROM_WORDS")}
        bad += [] if cases else ["no definition is called %s" % function]
        bad += differences(function, held, cases)
    for name, width in (("SET_WORDS", "set_row_length"), ("ROM_WORDS", "rom_row_length")):
        bad += differences(width, {name: c.get(name)}, dict((name, int(n)) for n in re.findall(r"(?m)^%s = (\d+)$" % width, specs)))
    for name, crate in OWNED:
        owned = re.search(r"pub const %s: usize = (\d+);" % name, text("crates/%s/src/lib.rt" % crate))
        bad += differences("%s of %s" % (name, crate), {name: c.get(name)}, {name: owned and int(owned.group(1))})
    bad += differences("the Rust wrapper", {k: v for k, v in c.items() if k.startswith(IN_RUST)}, r)
    c_words = {c.get(name): words for name, words in re.findall(r'case ONEROM_(\w+): return "(.*)";', header)}
    r_words = {r.get(name): words for name, words in re.findall(r'(?m)^ {8}(\w\w+) => "(.*)",$', rust)}
    bad += differences("the Rust wrapper's words", c_words, r_words)
    # the bench opens boards only, and shows no runtime record
    bad += differences("BENCH.md's words", {n: w for n, w in c_words.items() if n not in (0, 60, 61, 62)}, words_of_bench())
    refusals = {v for k, v in c.items() if k.startswith("REFUSED_") or k == "ACCEPTED"}
    bad += ["%s has no words" % n for n in sorted(refusals - set(c_words))]
    for b in bad:
        print(b)
    return 1 if bad else 0


if __name__ == "__main__":
    sys.exit(main())
