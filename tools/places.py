#!/usr/bin/env python3
"""Lists the places in src/ (for point 8: proofs/) that docs/DESIGN-PASS.md counts, a point at a time:
    tools/places.py POINT [ROOT]     each place on a line, and last how many
POINT is 1 to 8. It reads crates/*/src/*.rt and takes comments out first."""
import collections
import os
import re
import sys


def files(root, part, end):
    out = []
    for crate in sorted(os.listdir(os.path.join(root, "crates"))):
        top = os.path.join(root, "crates", crate, part)
        for at, _, names in os.walk(top):
            for name in sorted(names):
                if name.endswith(end):
                    out.append(os.path.join(at, name))
    return out


def code(path):
    text = open(path, encoding="utf-8").read()
    return re.sub(r"//[^\n]*", "", text)


def grep(root, patterns):
    for path in files(root, "src", ".rt"):
        for k, line in enumerate(code(path).split("\n"), 1):
            for name, pattern in patterns:
                if re.search(pattern, line):
                    yield f"{name}: {os.path.relpath(path, root)}:{k}: {line.strip()}"
                    break


FN = re.compile(r"(?:pub(?:\(crate\))? )?(?:extern \"C\" )?fn ([a-z_0-9]+)")


def functions(path):
    """Name, parameters and what comes before the body, and body of each function."""
    text = code(path)
    for m in FN.finditer(text):
        at = text.find("\n{", m.end())
        brace = text.find("{", m.end())
        nl = text.find("\n", m.end())
        # a body starts on the signature's line, or on a line of its own behind clauses
        depth, k = 0, m.end()
        start = None
        while k < len(text):
            c = text[k]
            if c == "(":
                depth += 1
            elif c == ")":
                depth -= 1
            elif c == "{" and depth == 0:
                head = text[m.end():k]
                line = text[text.rfind("\n", 0, k) + 1:k]
                if re.search(r"\b(requires|ensures)\b[^\n]*$", line):
                    level, k = 1, k + 1
                    while level:
                        level += {"{": 1, "}": -1}.get(text[k], 0)
                        k += 1
                    continue
                start = k
                break
            elif c == ";" and depth == 0:
                break
            k += 1
        if start is None:
            continue
        level, k = 1, start + 1
        while level and k < len(text):
            level += {"{": 1, "}": -1}.get(text[k], 0)
            k += 1
        yield m.group(1), text[m.end():start], text[start:k]


WORD = re.compile(r"[A-Za-z_][A-Za-z_0-9]*|\d[\w]*|b?\"(?:\\.|[^\"\\])*\"|b?'(?:\\.|[^'\\])'|\S")
KEYWORDS = set("if else while for in return let mut match true false as fn pub ref loop break continue self Self Ok Err Some None".split())


def shape(body):
    names, out = {}, []
    for w in WORD.findall(body):
        if w in KEYWORDS:
            out.append(w)
        elif re.match(r"[A-Za-z_]", w) and not w.startswith(("b\"", "b'")):
            out.append("n%d" % names.setdefault(w, len(names)))
        elif re.match(r"\d|b?[\"']", w):
            out.append("0")
        else:
            out.append(w)
    return tuple(out)


def twins(root):
    seen = collections.defaultdict(list)
    for path in files(root, "src", ".rt"):
        for name, head, body in functions(path):
            s = shape(body)
            if len(s) >= 16:
                seen[s].append(f"{os.path.relpath(path, root)}: {name}")
    for group in seen.values():
        if len(group) > 1:
            yield "twins: " + ", ".join(group)
    structs = collections.defaultdict(list)
    for path in files(root, "src", ".rt"):
        for m in re.finditer(r"struct (\w+)(?:<[^>]*>)? \{(.*?)\n\}", code(path), re.S):
            fields = re.findall(r"^\s*(?:pub(?:\(crate\))? )?(\w+): ", m.group(2), re.M)
            if len(fields) > 1:
                structs[tuple(fields)].append(f"{os.path.relpath(path, root)}: {m.group(1)}")
    for group in structs.values():
        if len(group) > 1:
            yield "structs of the same fields: " + ", ".join(group)


POINT1 = [
    ("number beside a value", r"^\s*(pub(\(crate\))? )?number: u(8|32),"),
    ("own Option or Result", r"^\s*(NotGiven|Given\(.*\)|Absent|Present\(.*\)|Refused\(.*\)|NotLookedFor|Looked\(.*\)),$"),
    ("flag beside a value", r"^\s*(pub(\(crate\))? )?(supported|ended|tried|is_early|is_ended|looked_for|waiting): (bool|u8),"),
    ("number for a kind", r"^(pub(\(crate\))? )?const [A-Z0-9_]+: u(8|16|64) = "),
    ("kind as a number", r"^\s*(pub(\(crate\))? )?(kind|command|next|status_number): u8,"),
    ("refusal as a number", r"(return |refuse\(|no_part\(image, |not_found\(|ungoverned_by\(|unmangled_by\(|no_byte\(|stop\([a-z]+, |number: |Refused\()\(?(1|2|3|4|[1-9][0-9]|1[01][0-9])\b"),
    ("test of a number", r"\b(number|refused)\s*(!=|==) \d+"),
    ("answer in lent words", r"\bnumber: &mut u"),
    ("sentinel", r"\b(return|=>) (255|REFUSED|NO_NUMBER|NO_OPTION|CHUNK)\b"),
]
POINT4 = [
    ("compared by hand", r"fn (is_before|same_all|same_bytes|same_reply|same_types|is_equal|starts_with|is_28c16|same_word)\b"),
    ("converted by hand", r"fn (\w+_of|\w+_number|\w+_place|level|bit_of|flag|pio\w*|metadata|metadata_number|no_\w+|long_run|digit|widened|wide|word_of)\([a-z_]+: [A-Za-z0-9_:\[\]; ]+\) -> (u8|u16|u32|bool|usize|\[u|[A-Z])"),
    ("printed by hand", r"(bench_out::(text|byte|number|hex|bytes)\(|bench_form::\w+\(|\b(form|told|choice)\($|\b(form|told|choice)\((&mut )?\w+, |show::\w+\(|\b(next|first|byte|flag|port|gap|end)\(rt)"),
]
TOGETHER = [
    ("image and base", ["image", "base"]),
    ("image and both bases", ["image", "flash_base", "cs0_base"]),
    ("set rows and ROM rows", ["set_rows", "rom_rows"]),
    ("set rows and ROM rows", ["sets", "roms"]),
    ("pins and sets served", ["pins", "served"]),
    ("served and set rows", ["served", "set_rows"]),
    ("filenames and stride", ["filenames", "long"]),
    ("ROM count and type", ["rom_count", "rom_type"]),
    ("a request's parts", ["request", "image"]),
    ("pins as placed", ["k", "controls"]),
]


def together(root):
    for path in files(root, "src", ".rt"):
        for name, head, body in functions(path):
            depth, k = 0, 0
            while k < len(head):
                depth += {"(": 1, ")": -1}.get(head[k], 0)
                if depth == 0 and head[k] == ")":
                    break
                k += 1
            params = re.findall(r"(?:^|[(,\s])(?:mut )?(\w+): ", head[:k])
            for what, group in TOGETHER:
                if all(g in params for g in group):
                    yield f"{what}: {os.path.relpath(path, root)}: {name}"
                    break
    seen = collections.defaultdict(list)
    for path in files(root, "src", ".rt"):
        for m in re.finditer(r"requires \{ (.*) \}$", code(path), re.M):
            seen[m.group(1)].append(os.path.relpath(path, root))
    for fact, where in seen.items():
        if len(where) >= 3:
            for w in where:
                yield f"fact of {len(where)} contracts: {w}: {fact}"


POINT6 = [
    ("length beside a buffer", r"^\s*(pub(\(crate\))? )?(count|length|len): (usize|u32),"),
    ("length of what was filled", r"fn \w+\(.*space: &mut \[u8\].*\) -> (usize|io::Result<usize>|Loaded|Filled)"),
    ("table searched by place", r"words::place\(|part\(table|part\(part\(|\bcell\(|\blettered\(|\bnamed\("),
    ("index handed on", r"\bwords\[at|\bpush\(words|\bbyte\(words|\bhalf\(words|\bflag\(words|\bport\(words|\bput\(to, "),
]
POINT7 = [
    ("switch on a kind", r"\b(match|if) \(?(call\.|request\.)?(kind|command|option|waiting|letter|is_second|next)\b"),
]


def proofs(root):
    for path in files(root, "proofs", ".antt"):
        name = os.path.basename(path)
        if name in ("Answers.antt", "Invariants.antt", "Proof.antt"):
            yield f"{os.path.relpath(path, root)}: {len(open(path, encoding='utf-8').read().splitlines())} lines"


def main():
    point, root = sys.argv[1], sys.argv[2] if len(sys.argv) > 2 else "."
    found = list({
        "1": lambda: grep(root, POINT1),
        "2": lambda: twins(root),
        "3": lambda: grep(root, [("loop by an index", r"\bwhile\b"), ("index counted", r"\bfor i in 0\.\.\w+\.len\(\)|\bfor [ikn] in (0|from)\.\.")]),
        "4": lambda: grep(root, POINT4),
        "5": lambda: together(root),
        "6": lambda: grep(root, POINT6),
        "7": lambda: grep(root, POINT7),
        "8": lambda: proofs(root),
    }[point]())
    kinds = collections.Counter(f.split(":")[0] for f in found)
    for f in found:
        print(f)
    if point != "8":
        for kind, n in kinds.most_common():
            print(f"# {kind}: {n}")
    print(f"# {len(found)} places")


main()
