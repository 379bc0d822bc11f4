#!/usr/bin/env python3
"""Runs the program on inputs that are made to be costly, and prints what each took. Run by hand, after a build.

    tools/time_costly_inputs.py                         # crates/peano/out/peano
    tools/time_costly_inputs.py PROGRAM

For each input: its bytes, the status, the text of the refusal or the number of bytes written, seconds, and the most memory
that was held. Ends with status 1 where a run takes more than ten seconds or ends by a signal.
"""
import os
import subprocess
import sys
import tempfile
import time

LIMIT = 1_048_576
HEAD = "dim = {dim}\ndepth = {depth}\nbase = {base}\nsolver = 'diffuse'\na = 1\nb = 1000000\nsteps = {steps}\n"


def head(dim=2, depth=8, base=0, steps=0):
    """The keys of a file without boxes."""
    return HEAD.format(dim=dim, depth=depth, base=base, steps=steps)


def box(name, level, start, end, more):
    """A box of a file."""
    return f"[[{name}]]\nlevel = {level}\nfrom = {list(start)}\nto = {list(end)}\n{more}\n"


def inputs():
    """The costly inputs: a name and the text of each."""
    fine = 3**8
    yield "a box of 3^24 cells, refined to level 8", head(dim=3) + box("refine", 8, [0] * 3, [fine] * 3, "until = 8")
    yield "a box of 3^24 cells, refined to level 1", head(dim=3) + box("refine", 8, [0] * 3, [fine] * 3, "until = 1")
    every = box("refine", 8, [0, 0], [fine, fine], "until = 5")
    yield "1,000 boxes that all meet everything", head(base=5) + every * 1000
    rows = "".join(box("refine", 8, [0, 3 * k], [fine, 3 * k + 1], "until = 8") for k in range(1000))
    yield "1,000 rows of cells refined to level 8", head() + rows
    fill = box("fill", 8, [0, 0], [fine, fine], "value = [1]")
    yield "1,000 fills over 59,049 leaves", head(depth=8, base=5) + fill * 1000
    rest = head(depth=0)
    yield "a megabyte of comments", rest + "#" * (LIMIT - len(rest) - 1) + "\n"
    yield "a megabyte of line feeds", rest + "\n" * (LIMIT - len(rest))
    yield "a megabyte of nested arrays", "x = " + "[" * (LIMIT // 2 - 2) + "]" * (LIMIT // 2 - 2)
    yield "arrays nested 80 deep", "x = " + "[" * 80 + "]" * 80 + "\n"
    yield "a key of 80 parts", ".".join(["x"] * 80) + " = 1\n"
    yield "a key of 500,000 parts", ".".join(["x"] * 500_000) + " = 1\n"
    yield "a number of a million digits", "dim = " + "9" * 1_000_000 + "\n"
    yield "90,000 unknown keys", "".join(f"k{n} = 1\n" for n in range(90_000))
    yield "60,000 tables of one list", "[[fill]]\n" * 60_000
    yield "no file but zeros", "\0" * LIMIT


def timed(program, path):
    """Runs a program on a file: its status, the size of its output, its text, seconds, and the most MiB that it held."""
    with open(path, "rb") as file, tempfile.TemporaryFile() as output, tempfile.TemporaryFile() as text:
        begun = time.monotonic()
        child = subprocess.Popen([program], stdin=file, stdout=output, stderr=text)
        _, status, used = os.wait4(child.pid, 0)
        seconds = time.monotonic() - begun
        text.seek(0)
        said = text.read().decode("utf-8", "replace").strip()
        return os.waitstatus_to_exitcode(status), output.seek(0, os.SEEK_END), said, seconds, used.ru_maxrss / 1024


def main():
    """Runs all inputs."""
    top = os.path.join(os.path.dirname(os.path.abspath(__file__)), "..")
    program = sys.argv[1] if len(sys.argv) > 1 else os.path.join(top, "crates", "peano", "out", "peano")
    slow = 0
    for name, text in inputs():
        with tempfile.NamedTemporaryFile("w", suffix=".toml") as file:
            file.write(text)
            file.flush()
            status, written, said, seconds, held = timed(program, file.name)
        told = said or f"{written} bytes written"
        print(f"{name}: {len(text)} bytes, status {status}, {told}, {seconds:.2f} s, {held:.0f} MiB")
        slow += seconds > 10 or status < 0
    sys.exit(slow > 0)


if __name__ == "__main__":
    main()
