#!/usr/bin/env python3
"""Brings the names of definitions, laws and variables to snake case: `romRead`, `reads-kept` -> `rom_read`, `reads_kept`. Types, modules, names
of std and names that Rattle makes (`loop-i-preserved`) stay.

usage: python3 tools/respell.py [FOLDER]      in FOLDER, or here: rewrites crates/ and the texts that speak of its names, and says what it did
       python3 tools/respell.py --look [FOLDER]      rewrites nothing; lists old and new names, and where two names of one file would be one

Names are found in the .antt files outside `Answers` and `Invariants`. Run again it changes nothing.
"""

import collections
import os
import re
import sys

WORD = re.compile(r"(?<![A-Za-z0-9_'%-])[A-Za-z_][A-Za-z0-9_'-]*(?<!-)")
IMPORT = re.compile(r"\buse\s+([\w.]+)\.\{([^}]*)\}", re.S)
# a rule of the UTF-8 grammar, named by its first octets
OCTETS = re.compile(r"[a-z][0-9A-F]{2}(-[0-9A-F]{2})?")
CODE = re.compile(r"`[^`\n]*`")
TEXTS = (".md", ".py", ".sh", ".h", ".c", ".rs")
# Names that would fall together with another one: a law with the definition that it is about, rows with the argument that holds them.
OTHER = {
    "setRows": "set_rows_of",
    "romRows": "rom_rows_of",
    "is28C16": "is_28c16",
    # by the grammar's names, UTF8-1 to UTF8-4
    "Utf8-1": "Utf8One",
    "Utf8-2": "Utf8Two",
    "Utf8-3": "Utf8Three",
    "Utf8-4": "Utf8Four",
    "T-both": "t_both",
    "T-not-true": "t_not_true",
} | {law: law.replace("-", "_") + "_is" for law in """job-read read-reply items-of all-high word-number any-after lacks-rows rest-on
    before-nul rom-row-length set-row-length not-looked-for counts-left some-counted sets-number metadata-ended data-read sets-after short-sets
    short-roms data-after one-after rows-from""".split()}
# Laws that an older script has turned already, while the definition beside them was still in mixed case.
TURNED = {"word_number": "wordNumber"}


def snake(name):
    if name in OTHER:
        return OTHER[name]
    if OCTETS.fullmatch(name):
        return name.replace("-", "_").lower()
    return re.sub(r"(?<=[a-z])(?=[A-Z])|(?<=[0-9])(?=[A-Z][a-z])|-", "_", name).lower()


def old_spelling(word):
    return word in OTHER or word[0].islower() and bool(re.search(r"[A-Z-]", word))


def files(root, ends):
    for folder, dirs, names in os.walk(root):
        dirs[:] = sorted(d for d in dirs if d not in ("out", ".git", "target", "__pycache__"))
        for name in sorted(names):
            if name.endswith(ends):
                yield os.path.join(folder, name)


def text_of(path):
    with open(path, encoding="utf-8") as f:
        return f.read()


def goals(path):
    return os.path.basename(path) in ("Answers.antt", "Invariants.antt")


def bare(line):
    """A line of antt without its comment."""
    return re.sub(r"(^|\s)--(\s.*)?$", "", line)


def names(root):
    """The names to respell: those of the .antt files, without what other crates' libraries lend."""
    crates = os.path.join(root, "crates")
    found, lent = set(), set()
    for path in files(crates, (".antt", ".rt")):
        text = text_of(path)
        for m in IMPORT.finditer(text):
            parts = m[1].split(".")
            if not (parts[0] == "Rattle" and os.path.isdir(os.path.join(crates, parts[1]))):
                lent.update(w.strip().split(" as ")[0] for w in m[2].split(","))
        if path.endswith(".antt") and not goals(path):
            for line in text.split("\n"):
                found.update(w for w in WORD.findall(bare(line)) if old_spelling(w))
    return {w: snake(w) for w in found - lent}


def in_code(text, new):
    return WORD.sub(lambda m: new.get(m[0], m[0]), text)


def in_comment(text, new):
    """Names of mixed case wherever they stand, those with hyphens only between backticks: elsewhere these may be English."""
    text = WORD.sub(lambda m: new.get(m[0], m[0]) if re.search("[A-Z]", m[0]) else m[0], text)
    return CODE.sub(lambda m: in_code(m[0], new), text)


def antt(text, new):
    lines = []
    for line in text.split("\n"):
        code = bare(line)
        for law, definition in TURNED.items():
            if definition in new:
                code = re.sub(r"(?<![.\w])%s\b" % law, law + "_is", code)
        lines.append(in_code(code, new) + in_comment(line[len(bare(line)) :], new))
    return "\n".join(lines)


def rt(text, new):
    """Clauses and imports; strings stay as they are."""
    lines = []
    for line in text.split("\n"):
        m = re.match(r"(\s*//)(.*)$", line)
        if m:
            lines.append(m[1] + in_comment(m[2], new))
        else:
            parts = re.split(r'(b?"(?:\\.|[^"\\])*")', line)
            lines.append("".join(p if i % 2 else in_code(p, new) for i, p in enumerate(parts)))
    return "\n".join(lines)


def edit(text, new):
    first, _, rest = text.partition("\n")
    return in_comment(first, new) + "\n" + in_code(rest, new)


def turned(path, text, new):
    if path.endswith(".antt"):
        return antt(text, new)
    if path.endswith(".rt"):
        return rt(text, new)
    if path.endswith(".edit"):
        return edit(text, new)
    return in_comment(text, new) if path.endswith(".md") else CODE.sub(lambda m: in_code(m[0], new), text)


def together(root, new):
    """Per file, the names that would be one."""
    for path in files(os.path.join(root, "crates"), (".antt", ".rt")):
        words = collections.defaultdict(set)
        for line in text_of(path).split("\n"):
            for w in WORD.findall(bare(line) if path.endswith(".antt") else line):
                words[new.get(w, w)].add(w)
        for n, olds in sorted(words.items()):
            if len(olds) > 1:
                yield os.path.relpath(path, root), n, sorted(olds)


def main(argv):
    look = "--look" in argv
    rest = [a for a in argv if a != "--look"]
    root = rest[0] if rest else "."
    new = names(root)
    if look:
        for old, name in sorted(new.items()):
            print(f"{old} {name}")
        for path, name, olds in together(root, new):
            print(f"together: {path}: {name} of {' '.join(olds)}")
        return 0
    changed = 0
    texts = [p for p in files(root, TEXTS) if os.path.relpath(p, root).split(os.sep)[0] not in ("crates", "tools")]
    for path in [*files(os.path.join(root, "crates"), (".antt", ".rt", ".edit")), *texts]:
        before = text_of(path)
        after = turned(path, before, new)
        if after != before:
            changed += 1
            with open(path, "w", encoding="utf-8") as f:
                f.write(after)
    print(f"{len(new)} names, {changed} files")
    return 0


if __name__ == "__main__":
    sys.exit(main(sys.argv[1:]))
