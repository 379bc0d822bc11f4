#!/usr/bin/env python3
"""Tests the tools for reports on the reports of examples/: ends with status 0 where all is as it should be."""
import glob
import os
import re
import subprocess
import sys
import xml.etree.ElementTree as ElementTree

from draw_field import axes_of, read
from report_to_vtk import grid_of

FAULTS = []


def check(what, holds):
    if not holds:
        FAULTS.append(what)


def check_grid(name, leaves, axes):
    """The cells of a VTK file are the leaves, in order, with their values and with their corners in VTK's order."""
    arrays = {it.get("Name"): it.text.split() for it in ElementTree.fromstring(grid_of(leaves, axes)).iter("DataArray")}
    numbers = [float(number) for number in arrays["points"]]
    corners = [int(number) for number in arrays["connectivity"]]
    for n, leaf in enumerate(leaves):
        for k in range(2**axes):
            at = 3 * corners[n * 2**axes + k]
            wanted = [(leaf[1 + axis] + (k >> axis & 1)) / 3 ** leaf[0] for axis in range(axes)]
            check(f"{name}: corner {k} of leaf {leaf}", all(abs(a - b) < 1e-12 for a, b in zip(numbers[at : at + axes], wanted)))
    check(f"{name}: offsets", arrays["offsets"] == [str(2**axes * (n + 1)) for n in range(len(leaves))])
    check(f"{name}: kinds", set(arrays["types"]) == {{2: "8", 3: "11"}[axes]})
    for place, array in [(0, "level"), (1 + axes, "value"), (2 + axes, "speed")]:
        if place < len(leaves[0]):
            check(f"{name}: {array}", arrays[array] == [str(leaf[place]) for leaf in leaves])


def check_words(tool):
    """A tool tells its use, and refuses what is no report in one line."""
    program = f"tools/{tool[0]}"
    told = subprocess.run([program, *tool[1:]], input="", capture_output=True, text=True)
    check(f"{program} refuses an empty input in one line", told.returncode == 1 and told.stderr.count("\n") == 1)
    told = subprocess.run([program, "--help"], capture_output=True, text=True)
    check(f"{program} tells its use", told.stdout.startswith("usage:"))


def main():
    os.chdir(os.path.join(os.path.dirname(os.path.abspath(__file__)), ".."))
    # Reports of fields: those that an example's words ask for show traffic.
    for report in sorted(name for name in glob.glob("examples/*.out") if not name.endswith(".words.out")):
        with open(report[: -len(".out")] + ".toml", encoding="utf-8") as file:
            axes = int(re.search(r"(?m)^dim = (\d)", file.read()).group(1))
        with open(report, encoding="utf-8") as file:
            steps = read(file)
        for step, leaves in steps:
            check(f"{report}: its number of axes", axes_of(leaves) == axes)
            check_grid(f"{report}, step {step}", leaves, axes)
    check("the root alone does not tell its number of axes", axes_of([[0, 0, 0, 0, 7]]) is None)
    check_words(["draw_field.py"])
    check_words(["report_to_vtk.py", "/nowhere/it"])
    for fault in FAULTS:
        print(f"test_tools: {fault}", file=sys.stderr)
    print(f"tools: {'their test FAILED' if FAULTS else 'their test passed'}", file=sys.stderr)
    return 1 if FAULTS else 0


if __name__ == "__main__":
    sys.exit(main())
