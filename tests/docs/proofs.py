#!/usr/bin/env python3
"""Holds docs/PROOFS.md to the sources: every name it cites exists, and stands in the file that it is said to stand in; the reading list has
every definition file with its number of lines. With --reading the reading list is printed."""
import os
import re
import sys

ROOT = os.path.join(os.path.dirname(os.path.abspath(__file__)), "..", "..")
CRATES = os.path.join(ROOT, "crates")

# Document 01's sections in its order, and the files that define what each says, with what document 02 adds to it.
READING = [
    ("what every definition is written with", ["base/Choice", "refusal/Refusal", "le/Le", "runs/Runs", "magic/Magic", "prog/Prog"]),
    ("Window", ["window/Window"]),
    ("String; RFC 3629", ["utf8/Utf8", "utf8/Rfc3629", "utf8/Points", "text/Text"]),
    ("Info header", ["types/Types", "types/Known", "types/Texts", "type_numbers/TypeNumbers", "version/Version", "header/Header"]),
    ("Extra info", ["extra_info/ExtraInfo"]),
    ("Metadata", ["metadata/Metadata", "sets_source/Looked"]),
    ("ROM sets and ROM infos", ["set_header/SetHeader", "walk/Walk", "walk/Names", "walk/Rows", "rows/LentRows", "rom_rows/Reply"]),
    ("Report", ["sets_item/Sets", "fw_parser/Opening", "fw_parser/Reply", "sdrr_info/Report"]),
    ("Pins", ["pins/Pins"]),
    ("Mangling", ["least_pin/LeastPin", "base_zero/BaseZero", "rom_rules/Rules", "input_word/Input", "demangle/Bits", "mangle/PinMap", "mangle/Others", "mangle/Mangle", "pin_map/Item", "demangle/Demangle"]),
    ("Lent rows, ROM data, same set", ["board/Board", "set_data/Data", "governing/Governing", "info/Lent", "info/Reads", "same_set/Same", "data_reads/Calls", "byte_reads/Calls"]),
    ("a count for each job (document 02, wish 4)", ["job_counts/Counts", "jobs/Jobs", "job_reads/Reads", "machine/Machine", "jobs/Histories", "jobs/Isolated", "opened_board/Histories"]),
    ("Runtime", ["runtime_info/Runtime", "runtime_info/Words"]),
    ("demand 3", ["cut_short/Shown", "opened_board/ReadAfter", "cut_short/Demand3"]),
    ("the calls of C and Rust", ["c_board/Board", "c_board/Value", "c_report/Report", "c_handed/Handed", "c_open/Opening", "c_job_reads/Reads", "c_mangle/Board"]),
    ("the bench's own numbers and settings", ["bench_args/Reason", "bench_args/Setting", "bench_file/Unread"]),
]
# Files at the top of specs/ that no buyer needs: the root, and a program's table.
NOT_READ = {"Lib", "Laws", "Code", "Examples", "Refused"}
NO_DEFINITIONS = {"starred"}
# Words in backquotes that name nothing of the sources.
WORDS = {"ensures", "requires", "read", "write", "stdout", "l"}


def text(path):
    with open(path, encoding="utf-8") as f:
        return f.read()


def spec(name):
    crate, module = name.split("/", 1)
    return os.path.join(CRATES, crate, "specs", module + ".antt")


def files(name):
    """Where a file of definitions or laws stands: in specs/, laws also in proofs/, and some in both, the statement and its proof."""
    crate, module = name.split("/", 1)
    paths = [os.path.join(CRATES, crate, folder, module + ".antt") for folder in ("specs", "proofs")]
    return [path for path in paths if os.path.exists(path)]


def reading():
    rows = ["| document 01 | files, with their lines |", "|---|---|"]
    total = 0
    for section, names in READING:
        cells = []
        for name in names:
            lines = text(spec(name)).count("\n")
            total += lines
            cells.append(f"{name} {lines}")
        rows.append(f"| {section} | {', '.join(cells)} |")
    rows.append(f"| together | {total} lines |")
    return "\n".join(rows)


def defined(path):
    """The names that an antt file declares or hands on."""
    t = text(path)
    names = set(re.findall(r"(?m)^ *(?:abbrev |unfoldable )?(?:pub )?(?:record |data )?([A-Za-z0-9][\w'′?-]*) ?[:({]", t))
    for group in re.findall(r"(?m)^(?:unfoldable )?pub use .*\{([^}]*)\}", t):
        names |= {name.strip() for name in group.split(",")}
    return names


def universe():
    names, rust, edits, crates = set(), {}, set(), set(os.listdir(CRATES))
    for d, _, files in os.walk(CRATES):
        for f in files:
            p = os.path.join(d, f)
            if f.endswith(".antt"):
                names |= defined(p)
            elif f.endswith(".rt"):
                crate = os.path.relpath(p, CRATES).split(os.sep)[0]
                found = re.findall(r"\b(?:fn|struct|enum|const|mod) ([A-Za-z_0-9]+)", text(p))
                rust.setdefault(crate, set()).update(found)
            elif f.endswith(".edit"):
                edits.add(f[:-5])
    return names, rust, edits, crates


def main():
    if "--reading" in sys.argv:
        print(reading())
        return 0
    doc = text(os.path.join(ROOT, "docs", "PROOFS.md"))
    names, rust, edits, crates = universe()
    everything = names | edits | crates | WORDS | set().union(*rust.values())
    bad = []
    for line in doc.split("\n"):
        for token in re.findall(r"`([^`]+)`", line):
            if re.fullmatch(r"[A-Za-z][\w'-]*", token) and token not in everything:
                bad.append(f"no such name: {token}")
        for name in re.findall(r"\b([a-z_0-9]+/[A-Z]\w*(?:/[A-Z]\w*)?)\b", line):
            if name.split("/")[0] in crates and not files(name):
                bad.append(f"no such file: {name}")
        # `a`, `b` in crate/File
        for group, name in re.findall(r"((?:`[\w'-]+`(?:, | and )?)+) in ([a-z_0-9]+/[A-Z]\w*(?:/[A-Z]\w*)?)\b", line):
            if files(name):
                here = set().union(*map(defined, files(name)))
                bad += [f"{n} is not in {name}" for n in re.findall(r"`([\w'-]+)`", group) if n not in here]
        # `f`, `g` in crate
        for group, crate in re.findall(r"((?:`[\w]+`(?:, | and )?)+) in ([a-z_0-9]+)\b(?!/)", line):
            if crate in rust:
                bad += [f"{n} is not in {crate}" for n in re.findall(r"`(\w+)`", group) if n not in rust[crate] | edits]
        for word in re.findall(r"must-fail ([a-z0-9_]+(?:, [a-z0-9_]+)*)", line):
            bad += [f"no such edit: {e}" for e in word.split(", ") if e not in edits]
    if reading() not in doc:
        bad.append("the reading list is not that of tests/docs/proofs.py --reading")
    listed = {n for _, ns in READING for n in ns}
    for crate in sorted(crates - NO_DEFINITIONS):
        d = os.path.join(CRATES, crate, "specs")
        for f in sorted(os.listdir(d)) if os.path.isdir(d) else []:
            name = f"{crate}/{f[:-5]}"
            if f.endswith(".antt") and f[:-5] not in NOT_READ and name not in listed:
                bad.append(f"not in the reading list: {name}")
    for b in dict.fromkeys(bad):
        print(b)
    return 1 if bad else 0


if __name__ == "__main__":
    sys.exit(main())
