#!/usr/bin/env python3
"""Refuses the requests for memory of raising, adaptation and showing sweeps one by one. Run by hand, after the gate.

    tools/refuse_memory_in_sweeps.py            # with the test program that rt ci left; where it is missing it is built
    tools/refuse_memory_in_sweeps.py --build    # proves and builds it before, as after an edit

The test `what_is_refused_is_made_again` of crates/worked_sweeps is run once with ample memory, which counts its requests, and
then once for each of them, which is refused. In each run the test checks that the sweep that was refused left a store that is
not live, with its tale as before, and that all sweeps, made again, end as with ample memory; it tells what was refused, or
nothing where the memory was not needed. Each run must pass, and each of the three sweeps must be refused in some run. Ends
with status 1 where that is not so. It needs a C compiler, as refuse_memory.py does.
"""
import argparse
import collections
import os
import subprocess
import sys
import tempfile

from refuse_memory import shim_in

TOP = os.path.join(os.path.dirname(os.path.abspath(__file__)), "..")
CRATE = os.path.join(TOP, "crates", "worked_sweeps")
TEST = "refused::what_is_refused_is_made_again"
SWEEPS = ["Raising", "Adapting", "Showing"]


def run(program, shim, more):
    """Whether the test passes, and what it tells."""
    env = {**os.environ, "LD_PRELOAD": shim, **more}
    ended = subprocess.run([program, TEST], stdin=subprocess.DEVNULL, capture_output=True, check=False, env=env, text=True)
    return ended.returncode == 0 and "test result: ok" in ended.stdout, ended.stderr.strip()


def refuse_all(program, folder):
    """Refuses each request for memory; the number of faults."""
    shim, counted = shim_in(folder), os.path.join(folder, "counted")
    passed, told = run(program, shim, {"COUNTED": counted})
    if not passed or told:
        print(f"{TEST}: with ample memory it fails, or tells of a refusal: {told}")
        return 1
    with open(counted, encoding="utf-8") as file:
        requests = int(file.read())
    faults, refused = 0, collections.Counter()
    for number in range(1, requests + 1):
        passed, told = run(program, shim, {"REFUSED": str(number)})
        refused[told or "not needed"] += 1
        if not passed or told not in [*SWEEPS, "Opening", ""]:
            faults += 1
            print(f"{TEST}: request {number}: {'passes' if passed else 'FAILS'} and tells {told!r}")
    for sweep in SWEEPS:
        if not refused[sweep]:
            faults += 1
            print(f"{TEST}: in no run was {sweep.lower()} refused")
    print(f"sweeps: of {requests} requests for memory, refused one by one, " + ", ".join(f"{name.lower()} {count}" for name, count in sorted(refused.items())))
    return faults


def main():
    """The command line."""
    parser = argparse.ArgumentParser(description=__doc__, formatter_class=argparse.RawDescriptionHelpFormatter)
    parser.add_argument("--build", action="store_true", help="prove and build the test program before")
    given = parser.parse_args()
    program = os.path.join(CRATE, "out", "worked_sweeps_tests")
    if given.build or not os.path.exists(program):
        subprocess.run(["rt", "test"], cwd=CRATE, check=True, stdout=subprocess.DEVNULL)
    with tempfile.TemporaryDirectory() as folder:
        sys.exit(refuse_all(program, folder) > 0)


if __name__ == "__main__":
    main()
