"""Running the bench, and comparing what it says."""
import functools
import os
import re
import subprocess
import sys

TOP = os.path.dirname(os.path.dirname(os.path.dirname(os.path.abspath(__file__))))
sys.path.insert(0, os.path.join(TOP, "samples"))
sys.path.append(os.path.join(TOP, "tests", "model"))  # last: the samples' make.py is meant
sys.dont_write_bytecode = True

STORED = os.path.join(TOP, "tests", "data", "bench")
PROGRAM = os.path.join(TOP, "crates", "bench", "out", "bench")
BYTES = os.path.join(TOP, "crates", "bench_bytes", "out", "bench_bytes")


def expect(is_right, what):
    if not is_right:
        sys.exit("bench: " + what)


def same(got, wanted, what):
    expect(got == wanted, "%s:\n  got    %r\n  wanted %r" % (what, got, wanted))


def program_of(folder, words):
    """The program that answers: bench, unless it says that another does."""
    if not {"read", "raw", "byte"} & set(words):
        return PROGRAM
    done = subprocess.run([PROGRAM, *words], cwd=folder, stdin=subprocess.DEVNULL, capture_output=True, timeout=60)
    return BYTES if words_of_numbers()[119].encode() in done.stdout + done.stderr else PROGRAM


def run(folder, *words):
    done = subprocess.run([program_of(folder, words), *words], cwd=folder, stdin=subprocess.DEVNULL, capture_output=True, timeout=60)
    same(done.returncode, 0, "exit status of bench " + " ".join(words))
    return done.stdout, done.stderr


def put(at, name, data):
    with open(os.path.join(at, "made", name), "wb") as f:
        f.write(data)
    return "made/" + name


def facts_of(at, *words):
    out, err = run(at, *words, "--machine")
    same(err, b"", "standard error of bench " + " ".join(words))
    lines = out.decode().split("\n")
    same((lines[0], lines[-2:]), ("ok", ["end", ""]), "first and last line of bench " + " ".join(words))
    return [tuple(line.split(" ", 1)) for line in lines[1:-2]]


def beside(words, count):
    """What stands on standard error beside so many bytes: for a person, and for a script."""
    if "raw" in words:
        return b"", b"ok\nbytes %d\n" % count
    i = int(words[words.index("read") + 1], 0)
    if "--by-set-0" in words:
        return b"bench: set %d is read by set 0's ROM count and first type\n" % i, b"ok\nby_set 0\nbytes %d\n" % count
    return b"", b"ok\nby_set %d\nbytes %d\n" % (i, count)


def bytes_of(at, *words):
    out, err = run(at, *words)
    person, script = beside(words, len(out))
    same(err, person, "standard error of bench " + " ".join(words))
    same(run(at, *words, "--machine"), (out, script), "bench --machine " + " ".join(words))
    return out


@functools.cache
def words_of_numbers():
    """The table in docs/BENCH.md."""
    text = open(os.path.join(TOP, "docs", "BENCH.md"), encoding="utf-8").read()
    table = text.split("## The numbers in words")[1]
    return {int(n): words for n, words in re.findall(r"^\| (\d+) \| (.*) \|$", table, re.M)}


def refused_whole(at, number, words, *arguments):
    """The call is refused: its last line has the words, a script's first two have number and words, and there is nothing else."""
    out, err = run(at, *arguments)
    said = "refused with %d:\n  %s" % (number, words) if number < 100 else words
    expect(out == b"" and err.decode().endswith(": " + said + "\n"), "%r: %r" % (arguments, err))
    same(err.count(b"\n"), 1 + said.count("\n"), "%r: lines on standard error" % (arguments,))
    out, err = run(at, *arguments, "--machine")
    to, other = (err, out) if "read" in arguments or "raw" in arguments else (out, err)
    same((to.decode(), other), ("refused %d\nreason %s\n" % (number, words), b""), "%r" % (arguments,))


def refused_item(at, number, words, item, image):
    """The board opens, and an item of it is refused."""
    file = put(at, "item.img", image)
    got = dict(facts_of(at, file))
    same((got[item + ".number"], got[item + ".reason"]), (str(number), words), "%s refused with %d" % (item, number))
    expect(item + ".text" not in got and item + ".width" not in got, "%s refused with %d, and shown" % (item, number))
    out, err = run(at, file)
    expect(err == b"" and ("refused with %d: %s\n" % (number, words)).encode() in out, "%s refused with %d, for a person" % (item, number))
