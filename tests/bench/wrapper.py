"""The script ./bench: when it has the program proved, what it runs, and what it passes on. In a small copy of the repository, where a
stand-in for rt leaves what rt leaves, and the program is a script that says how it was called."""
import os
import re
import shutil
import stat
import subprocess
import time

from tools import TOP, expect, same

# As rt: a stamp goes first and comes back on success, but not where a source changes meanwhile. What it says must reach no caller.
RT = """#!/bin/sh
echo "rt says $*"; echo "rt says it here too" >&2
cat >/dev/null
echo run >>"$RUNS"
name=${PWD##*/}
cd ../..
out=crates/$name/out
mkdir -p "$out" crates/low/out/rlib
[ -z "${SLOW-}" ] || sleep "$SLOW"
[ -z "${EDIT-}" ] || echo more >>crates/bench/src/main.rt
if grep -q bad crates/*/src/*; then echo "rt: $name NOT PROVED"; exit 1; fi
cat crates/low/src/* crates.txt | cksum >crates/low/out/rlib/stamp
rm -f "$out/$name.stamp"
cp "$PROGRAM" "$out/$name"
[ -n "${EDIT-}" ] || cat "crates/$name/src/"* crates.txt | cksum >"$out/$name.stamp"
"""

# Says its words, one in brackets each, and what it finds on standard input; ends with the status that FAKE_STATUS asks for. With FAKE_OTHER, bench
# leaves all of that to the other program.
PROGRAM = """#!/usr/bin/env bash
[ -z "${FAKE_OTHER-}" ] || [ "${0##*/}" != bench ] || { printf 3 >&3; exit; }
printf '[%s]' "$@" 2>/dev/null || failed=1
[ -z "${FAKE_READS-}" ] || cat
[ -z "${FAKE_WAITS-}" ] || sleep "$FAKE_WAITS"
printf '%s' "${failed-${FAKE_STATUS-0}}" >&3
"""


# All that the two scripts and the tests call: the machine's own rt must not be among it.
TOOLS = "awk bash cat cksum cp date dirname find flock grep head ln mkdir mktemp mv readlink rm setpriv sh sha256sum sleep sort wc xargs".split()


class Checkout:
    """A folder with a blank in its name; beside it the stand-in for rt."""

    def __init__(self, at):
        self.at, self.top, self.kit = at, os.path.join(at, "a checkout"), os.path.join(at, "kit")
        for name, text in {"low/src/lib.rt": "low", "bench/src/main.rt": "main", "bench/must-fail/index.edit": "edit", "bench_bytes/src/main.rt": "bytes",
                           "other/src/lib.rt": "other"}.items():
            self.write(os.path.join("crates", name), text)
        self.write("crates.txt", "low:\nother:\nbench: low io # the program\nbench_bytes: low os\n")
        shutil.copy(os.path.join(TOP, "bench"), self.top)
        self.program = self.script(os.path.join(at, "program"), PROGRAM)
        os.mkdir(self.kit)
        self.tools = os.path.join(at, "tools")
        os.mkdir(self.tools)
        for name in filter(shutil.which, TOOLS):
            os.symlink(shutil.which(name), os.path.join(self.tools, name))
        self.script(os.path.join(self.kit, "rt"), RT)
        self.runs = os.path.join(at, "runs")

    def script(self, path, text):
        with open(path, "w") as f:
            f.write(text)
        os.chmod(path, 0o755)
        return path

    def write(self, name, text):
        path = os.path.join(self.top, name)
        os.makedirs(os.path.dirname(path), exist_ok=True)
        with open(path, "w") as f:
            f.write(text)

    def path(self, has_kit=True):
        return (self.kit + ":" if has_kit else "") + self.tools

    def start(self, words, has_kit=True, shell='"$0" "$@"', **more):
        surroundings = dict(os.environ, PATH=self.path(has_kit), RUNS=self.runs, PROGRAM=self.program, **more)
        command = ["bash", "-c", shell, os.path.join(self.top, "bench"), *words]
        return subprocess.Popen(command, cwd=self.at, env=surroundings, stdin=subprocess.PIPE, stdout=subprocess.PIPE, stderr=subprocess.PIPE)

    def run(self, *words, data=b"", **more):
        """Status, standard output without the words that the script itself adds, lines on standard error, how often rt ran."""
        before = self.count()
        process = self.start(words, **more)
        out, err = process.communicate(data, timeout=60)
        own = b"[--status][--sample][%s/samples/rp2350.img]" % self.top.encode()
        expect(out == b"" or out.startswith(own), "called as %r" % out[:200])
        out = re.sub(rb"^\[--link\]\[/[^]]*/file\]", b"", out[len(own) :])
        return process.returncode, out, err.decode().split("\n")[:-1], self.count() - before

    def count(self):
        return len(open(self.runs).read().split()) if os.path.exists(self.runs) else 0


ANSWER = (0, b"[raw][0]", [], 0)


def proves_once(c):
    same(c.run("raw", "0"), (0, b"[raw][0]", ["bench: proving 2 of 2 crates: once, some minutes"], 1), "the first run")
    same(open(os.path.join(c.top, "target", "bench.log")).read(), "rt says run -- --version\nrt says it here too\n", "the log")
    same(c.run("raw", "0"), ANSWER, "the second run")
    # What is no part of the program makes no difference, nor do times alone.
    c.write("crates/other/src/lib.rt", "bad")
    c.write("crates/bench/must-fail/index.edit", "another")
    c.write("crates/bench/src/main.rt", "main")
    same(c.run("raw", "0"), ANSWER, "the same sources, written again")
    c.write("crates/other/src/lib.rt", "other")


def sees_changes(c):
    one, two = ["bench: proving 1 of 2 crates: once, some minutes"], ["bench: proving 2 of 2 crates: once, some minutes"]
    c.write("crates/bench/src/main.rt", "main again")
    same(c.run("raw", "0"), (0, b"[raw][0]", one, 1), "the program changed")
    c.write("crates/low/src/lib.rt", "low again")
    same(c.run("raw", "0"), (0, b"[raw][0]", two, 1), "a crate below it changed")
    # A script's first line on standard error is the program's, where it asks for bytes.
    c.write("crates/low/src/lib.rt", "low once more")
    same(c.run("x", "raw", "0", "--machine"), (0, b"[x][raw][0][--machine]", [], 1), "a change, for a script")
    c.write("crates/low/src/lib.rt", "and again")
    same(c.run("--", "--machine"), (0, b"[--][--machine]", two, 1), "a change, and a file called --machine")
    c.write("crates/low/src/lib.rt", "old, by its time")
    os.utime(os.path.join(c.top, "crates/low/src/lib.rt"), (0, 0))
    same(c.run("raw", "0")[3], 1, "a change with an old time")
    c.write("crates/low/src/more.rt", "more")
    same(c.run("raw", "0")[3], 1, "a new file")
    os.unlink(os.path.join(c.top, "crates/low/src/more.rt"))
    same(c.run("raw", "0")[3], 1, "a file less")
    c.write("crates/bench/out/bench", PROGRAM + "echo another program\n")
    same(c.run("raw", "0"), (0, b"[raw][0]", [], 1), "another program in its place")
    same((c.run("raw", "0", EDIT="1")[:2], c.run("raw", "0")), ((0, b"[raw][0]"), ANSWER), "nothing to prove, so nothing changes on the way")
    c.write("crates/low/src/lib.rt", "low")
    same(c.run("raw", "0", EDIT="1")[::3], (0, 1), "a source that changes while it is proved")
    same(c.run("raw", "0")[::3], (0, 1), "is proved at the next run")
    same(c.run("raw", "0"), ANSWER, "and then no more")


def failed_check(c):
    log = os.path.join(c.top, "target", "bench.log")
    c.write("crates/bench/src/main.rt", "bad")
    for time_of in ("first", "second"):
        code, out, err, runs = c.run("raw", "0")
        same((code, out, runs, len(err)), (1, b"", 1, 2), "a failed check, the %s time" % time_of)
        same(err[1], "bench: the check failed, and what is not proved is not run; why: " + log, "what is said of it")
    expect("NOT PROVED" in open(log).read(), "the log says why")
    same(c.run("raw", "0", has_kit=False)[:2], (1, b""), "a failed check, and then no kit")
    c.write("crates/bench/src/main.rt", "main")
    same((c.run("raw", "0")[::3], c.run("raw", "0")), ((0, 1), ANSWER), "mended")
    # So does a build by hand that was cut off.
    os.unlink(os.path.join(c.top, "crates", "bench", "out", "bench.stamp"))
    same(c.run("raw", "0", has_kit=False)[:2], (1, b""), "no stamp, no run")
    same((c.run("raw", "0")[::3], c.run("raw", "0")), ((0, 1), ANSWER), "stamped again")


def no_kit(c):
    same(c.run("raw", "0", has_kit=False), ANSWER, "no kit, and a proved program")
    same(c.run("raw", "0", has_kit=False, shell='mv "$(dirname "$0")/crates/bench/out/bench" away; "$0" "$@"'),
         (1, b"", ["bench: the Rattle kit is missing (no rt on the PATH): see Install in %s/README.md" % c.top], 0),
         "no kit and no program")
    os.rename(os.path.join(c.at, "away"), os.path.join(c.top, "crates", "bench", "out", "bench"))


def lower(path, bits):
    os.chmod(path, stat.S_IMODE(os.stat(path).st_mode) & ~0o222 | bits)


def read_only(c):
    """Copies that no one may write, with times of their own, run by one who is not root."""
    for folder in (os.path.dirname(c.at), c.at):
        os.chmod(folder, 0o755)
    for name, is_proved, record in (("proved copy", True, True), ("stamped copy", True, False), ("bare copy", False, False)):
        top = os.path.join(c.at, name)
        shutil.copytree(c.top, top, copy_function=shutil.copy2 if is_proved and not record else shutil.copy)
        if not record:
            os.unlink(os.path.join(top, "target", "bench.proved"))
        if not is_proved:
            shutil.rmtree(os.path.join(top, "target"))
            shutil.rmtree(os.path.join(top, "crates", "bench", "out"))
        for folder, _, files in os.walk(top):
            lower(folder, 0o555)
            for file in files:
                lower(os.path.join(folder, file), 0o444)
        as_nobody = "setpriv --reuid=65534 --regid=65534 --clear-groups " if os.getuid() == 0 else ""
        process = c.start(["raw", "0"], shell='%s"$(dirname "$0")/../%s/bench" "$@"' % (as_nobody, name))
        out, err = process.communicate(timeout=60)
        if is_proved:
            same((process.returncode, out.split(b"rp2350.img]")[-1], err), (0, b"[raw][0]", b""), name)
        else:
            same((process.returncode, out, err.decode()),
                 (1, b"", "bench: no proved program, and nothing may be written to %s/target to make one\n" % top), name)
        for folder, _, files in os.walk(top):
            os.chmod(folder, 0o755)


def called_from_anywhere(c):
    link = os.path.join(c.at, "link to it")
    os.symlink(os.path.join(c.top, "bench"), link)
    os.makedirs(os.path.join(c.at, "else where", "a checkout"))
    for shell in ('"./link to it" "$@"', 'cd "else where" && "../link to it" "$@"', 'cd "a checkout" && bash bench "$@"', 'PATH="$PWD/a checkout:$PATH"; bench "$@"',
                  'export CDPATH="$PWD/else where:$PWD"; "$0" "$@"', 'cd "a checkout/crates" && CDPATH=.. ../bench "$@"'):
        same(c.run("raw", "0", shell=shell), ANSWER, shell)
        c.write("crates/bench/src/main.rt", shell)
        same(c.run("raw", "0", shell=shell)[::3], (0, 1), "proved by way of " + shell)


def passes_on(c):
    """Words, bytes on standard input and output, and the status."""
    odd = ["", "a b", "two\nlines", "--", "-", "*", "$HOME", "\\", "--machine=1", "file\udcff"]
    same(c.run(*odd)[1], "".join("[%s]" % word for word in odd).encode(errors="surrogateescape"), "odd words")
    many = list(map(str, range(20000)))
    before = time.monotonic()
    same(c.run(*many), (0, "".join("[%s]" % word for word in many).encode(), [], 0), "20,000 words")
    expect(time.monotonic() - before < 5, "20,000 words take no time")
    data = bytes(range(256)) * 1000
    same(c.run("-", data=data, FAKE_READS="1"), (0, b"[-]" + data, [], 0), "bytes go in and out as they are")
    c.write("crates/bench/src/main.rt", "to be proved with a dump on standard input")
    same(c.run("-", data=data, FAKE_READS="1")[1], b"[-]" + data, "rt takes nothing of them")
    for said, code in (("0", 0), ("1", 1), ("2", 2), ("", 1), ("4", 1), ("00", 1)):
        same(c.run("x", FAKE_STATUS=said), (code, b"[x]", [], 0), "status %r" % said)
    same(c.run("x", shell='"$0" "$@" >&-'), (1, b"", [], 0), "a closed output")
    same(c.run("x", shell='"$0" "$@" >/dev/full')[::3], (1, 0), "a full disk")
    same(c.run("x", shell='"$0" "$@" <&-'), (0, b"[x]", [], 0), "a closed input")
    same(c.run("x", shell='"$0" "$@" <&- 2>&-', FAKE_READS="1")[:2], (0, b"[x]"), "a closed input that is read")
    same(c.run("x", shell='"$0" "$@" 2>&-'), (0, b"[x]", [], 0), "a closed error output")
    same(c.run("x", shell='"$0" "$@" <&- >&- 2>&-'), (1, b"", [], 0), "all of them closed")
    process = c.start(["x"], FAKE_WAITS="3")
    before = time.monotonic()
    expect(process.stdout.read(10) == b"[--status]" and time.monotonic() - before < 2, "bytes come at once")
    process.communicate(timeout=60)


def in_an_odd_folder(c):
    """A checkout in a folder whose name is no UTF-8: the sample is given by a link with a name that is."""
    odd = c.top + "\udcff"
    os.rename(c.top, odd)
    surroundings = dict(os.environ, PATH=c.path(), RUNS=c.runs, PROGRAM=c.program)
    done = subprocess.run(["bash", os.path.join(odd, "bench"), "raw", "0"], cwd=c.at, env=surroundings, stdin=subprocess.DEVNULL, capture_output=True, timeout=60)
    os.rename(odd, c.top)
    expect(re.fullmatch(rb"\[--status\]\[--sample\]\[/[\x21-\x5a\x5e-\x7e ]*/sample\]\[raw\]\[0\]", done.stdout), "in an odd folder: %r" % done.stdout)


def other_program(c):
    """What bench leaves to bench_bytes: proved when it is first asked for, with the caller's words and input, and its own status."""
    c.write("crates/low/src/lib.rt", "for both")
    first, second = "bench: proving 2 of 2 crates: once, some minutes", "bench: proving 1 of 2 crates: once, some minutes"
    same(c.run("x", "raw", "0", FAKE_OTHER="1"), (0, b"[x][raw][0]", [first, second], 2), "both are proved")
    same(c.run("x", "raw", "0", FAKE_OTHER="1"), (0, b"[x][raw][0]", [], 0), "and then run")
    same(c.run("x"), (0, b"[x]", [], 0), "a report")
    c.write("crates/bench_bytes/src/main.rt", "bytes again")
    same(c.run("x"), (0, b"[x]", [], 0), "a report needs no bytes")
    same(c.run("-", data=b"dump", FAKE_OTHER="1", FAKE_READS="1"), (0, b"[-]dump", [second], 1), "the input is the other program's")
    for said, code in (("1", 1), ("2", 2), ("", 1), ("3", 1)):
        same(c.run("x", FAKE_OTHER="1", FAKE_STATUS=said), (code, b"[x]", [], 0), "the other program's status %r" % said)
    c.write("crates/bench_bytes/src/main.rt", "bad")
    same(c.run("x", FAKE_OTHER="1")[:2], (1, b""), "a failed check of the other program")
    c.write("crates/bench_bytes/src/main.rt", "bytes")


def two_at_once(c):
    c.write("crates/bench/src/main.rt", "for two")
    before = c.count()
    both = [c.start(["raw", str(n)], SLOW="1") for n in range(2)]
    for n, process in enumerate(both):
        expect(process.communicate(timeout=60)[0].endswith(b"[raw][%d]" % n) and process.returncode == 0, "one of two at once")
    if shutil.which("flock"):
        same(c.count() - before, 1, "two at once: rt runs once")


def wrapper(at):
    c = Checkout(os.path.join(at, "wrapper"))
    for part in (proves_once, sees_changes, failed_check, no_kit, read_only, called_from_anywhere, in_an_odd_folder, passes_on, other_program, two_at_once):
        part(c)
