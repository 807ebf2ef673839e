"""Calls of ./bench, the command, and of the program behind it: what they write, and the exit status."""
import os
import subprocess

from tools import TOP, expect, same

WRAPPER = os.path.join(TOP, "bench")
SAMPLE = "samples/rp2350.img"


def call(at, *words, program=WRAPPER, **more):
    """Exit status, standard output, standard error."""
    files = {"stdin": subprocess.DEVNULL, "stdout": subprocess.PIPE, "stderr": subprocess.PIPE}
    if "input" in more:
        del files["stdin"]
    done = subprocess.run([program, *words], cwd=at, timeout=60, **dict(files, **more))
    return done.returncode, done.stdout, done.stderr


def without(descriptor):
    """For a call's `preexec_fn`: the descriptor is closed."""
    return lambda: os.close(descriptor)


def is_bytes(words):
    """Whether bytes are asked for: then a script's refusal goes to standard error."""
    return "read" in words or "raw" in words


def refused(got, status, number, table, words, what):
    """A refusal: its status and words, and no byte of an answer; on one line for a person, on two for a script."""
    code, out, err = got
    if "--machine" in words:
        said, other = (err, out) if is_bytes(words) else (out, err)
        same((code, said.decode(), other), (status, "refused %d\nreason %s\n" % (number, table[number]), b""), what)
        return
    same((code, out), (status, b""), what)
    expect(err.startswith(b"bench: ") and err.decode().endswith(table[number] + "\n"), "%s: %r" % (what, err))
