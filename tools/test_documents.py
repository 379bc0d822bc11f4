#!/usr/bin/env python3
"""Tests what README.md and docs/*.md show and cite: ends with status 0 where all of it is in the repository.

A block that begins with '$ bin/peano < examples/NAME.toml' must go on with examples/NAME.out, and one that has words before
the '<' with examples/NAME.words.out, where the words must be those of examples/NAME.words; the gate compares both with the
proved program's reports (crates/worked_examples). A block that begins with '$ tools/..' must go on with what that tool
writes, and each picture docs/pictures/NAME_STEP.svg must be the one that tools/draw_field.py --svg draws. Each path under
examples/, tools/, docs/, bin/ and crates/ must be there, and each link must lead somewhere. The tables of docs/MODEL.md must
be those that tools/list_definitions.py makes of the definitions.
"""
import glob
import os
import re
import subprocess
import sys
import tempfile

PATH = re.compile(r"(?<![\w./-])(?:examples|tools|docs|bin|crates)/[\w./-]*[\w/]")
LINK = re.compile(r"\]\(([^)\s]+)\)")


def blocks_of(text):
    """The indented blocks: each the list of its lines, without the indent and without blank lines at its ends."""
    block = []
    for line in [*text.split("\n"), "the end"]:
        if line.startswith("    ") or (block and not line):
            block.append(line[4:])
        elif block:
            yield "\n".join(block).rstrip("\n").split("\n")
            block = []


def text_of(file):
    """What a file of the repository has."""
    with open(file, encoding="utf-8") as it:
        return it.read()


def output_of(command):
    """What a command that a document shows writes."""
    program, _, file = command.partition(" < ")
    name, words = file[: -len(".toml")], program.split()[1:]
    if not program.startswith("bin/peano"):
        with open(file, encoding="utf-8") as it:
            return subprocess.run(program.split(), stdin=it, capture_output=True, text=True, check=True).stdout
    if not words:
        return text_of(f"{name}.out")
    if not os.path.exists(f"{name}.words") or text_of(f"{name}.words").split() != words:
        return f"no run of the gate: examples have no run of {file} with these words"
    return text_of(f"{name}.words.out")


def anchors_of(text):
    """The anchors of the headings of a document."""
    heads = re.findall(r"(?m)^#+ (.*)$", text)
    return {re.sub(r"[^\w -]", "", head.lower()).replace(" ", "-") for head in heads}


def faults_of(name):
    """What does not hold in a document."""
    with open(name, encoding="utf-8") as it:
        text = it.read()
    for block in blocks_of(text):
        if re.match(r"\$ (bin/peano.*|tools/\S+.*) < examples/", block[0]):
            wanted = output_of(block[0][2:]).rstrip("\n").split("\n")
            if [line.rstrip() for line in block[1:]] != [line.rstrip() for line in wanted]:
                yield f"the block of '{block[0]}' is not what the command gives"
    for path in PATH.findall(text):
        if not os.path.exists(path) and "NAME" not in path:
            yield f"{path} is not in the repository"
    for link in LINK.findall(text):
        if ":" in link:
            continue
        path, _, anchor = link.partition("#")
        path = os.path.join(os.path.dirname(name), path) if path else name
        if not os.path.exists(path):
            yield f"the link {link} leads nowhere"
        elif anchor:
            with open(path, encoding="utf-8") as it:
                if anchor not in anchors_of(it.read()):
                    yield f"the link {link} leads to no heading"


def old_pictures():
    """The pictures that are not what the tool draws."""
    for picture in sorted(glob.glob("docs/pictures/*.svg")):
        name, _, step = os.path.basename(picture)[: -len(".svg")].rpartition("_")
        with tempfile.TemporaryDirectory() as room, open(f"examples/{name}.out", encoding="utf-8") as report:
            subprocess.run(["tools/draw_field.py", "--step", step, "--svg", f"{room}/{name}"], stdin=report, check=True)
            with open(f"{room}/{name}_{step}.svg", "rb") as drawn, open(picture, "rb") as kept:
                if drawn.read() != kept.read():
                    yield f"{picture} is not what tools/draw_field.py draws"


def main():
    os.chdir(os.path.join(os.path.dirname(os.path.abspath(__file__)), ".."))
    faults = [f"{name}: {fault}" for name in ["README.md", *sorted(glob.glob("docs/*.md"))] for fault in faults_of(name)]
    faults += old_pictures()
    faults += ["docs/MODEL.md is not what the definitions say"] if subprocess.run(["tools/list_definitions.py", "--check"]).returncode else []
    faults += ["examples/ is not what the gate runs"] if subprocess.run(["tools/copy_examples.sh", "--check"]).returncode else []
    for fault in faults:
        print(f"test_documents: {fault}", file=sys.stderr)
    print(f"documents: {'their test FAILED' if faults else 'their test passed'}", file=sys.stderr)
    return 1 if faults else 0


if __name__ == "__main__":
    sys.exit(main())
