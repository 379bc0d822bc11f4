#!/usr/bin/env python3
"""Refuses the built program's requests for memory one by one, and checks each answer. Run by hand, after a build; it needs
a C compiler, cc or the Rattle toolchain's, for a library of twenty lines that stands before malloc and realloc.

    tools/refuse_memory.py examples/single_cell.toml examples/centre_pulse.toml
    tools/refuse_memory.py --program crates/peano/out/peano --words '--trees 2' examples/refined_centre.toml

For each file the program is run once with ample memory, which counts its requests, and then once for each request, which is
refused. Each run must either write its whole report, as it does with ample memory, or end with status 8, say 'out of memory'
and write nothing. Ends with status 1 where an answer is another one.
"""
import argparse
import os
import shutil
import subprocess
import sys
import tempfile
import time

TOP = os.path.join(os.path.dirname(os.path.abspath(__file__)), "..")

SHIM = r"""
void *dlsym(void *, const char *);
int open(const char *, int, ...);
long pwrite(int, const void *, unsigned long, long);
char *getenv(const char *);
unsigned long strtoul(const char *, char **, int);
static unsigned long asked, refused;
static int told = -1;
static void *next(const char *name) { return dlsym((void *)-1, name); }
static void tell(unsigned long number) {
    char text[20];
    for (int place = 19; place >= 0; place--, number /= 10) text[place] = '0' + number % 10;
    pwrite(told, text, 20, 0);
}
static int is_refused(void) {
    unsigned long number = __atomic_add_fetch(&asked, 1, __ATOMIC_SEQ_CST);
    if (number == 1) {
        refused = getenv("REFUSED") ? strtoul(getenv("REFUSED"), 0, 10) : 0;
        told = getenv("COUNTED") ? open(getenv("COUNTED"), 1 | 64, 0600) : -1;
    }
    if (told >= 0) tell(number);
    return number == refused;
}
void *malloc(unsigned long size) {
    static void *(*real)(unsigned long);
    if (!real) real = (void *(*)(unsigned long))next("malloc");
    return is_refused() ? 0 : real(size);
}
void *realloc(void *old, unsigned long size) {
    static void *(*real)(void *, unsigned long);
    if (!real) real = (void *(*)(void *, unsigned long))next("realloc");
    return is_refused() ? 0 : real(old, size);
}
"""


def compiler():
    """A C compiler, with the words by which it makes a library."""
    if shutil.which("cc"):
        return ["cc", "-shared"]
    page = subprocess.run(["rt", "doc"], capture_output=True, check=True, text=True).stdout.strip()
    tools = os.path.join(os.path.dirname(page), "toolchain")
    return [f"{tools}/bin/clang", "-shared", "-fuse-ld=lld", f"-B{tools}/bin", f"-L{tools}/lib", "-nostdlib"]


def shim_in(folder):
    """Builds the library that stands before malloc and realloc; its path."""
    shim = os.path.join(folder, "shim.so")
    subprocess.run([*compiler(), "-O1", "-fPIC", "-w", "-o", shim, "-xc", "-", "-xnone", "-lc"], input=SHIM.encode(), check=True)
    return shim


def run(command, path, shim, more):
    """Status, output and text of a run."""
    with open(path, "rb") as file:
        env = {**os.environ, "LD_PRELOAD": shim, **more}
        ended = subprocess.run(command, stdin=file, capture_output=True, check=False, env=env)
    return ended.returncode, ended.stdout, ended.stderr.decode("utf-8", "replace")


def fault(ended, whole):
    """What is wrong with a run, or None where it wrote its whole report or was refused as it must be."""
    status, output, text = ended
    if ended == whole:
        return None
    if status != 8:
        return f"status {status}"
    if output:
        return f"wrote {len(output)} bytes before it was refused"
    return None if text == "out of memory\n" else f"says {text!r}"


def check(command, path, shim, folder):
    """Refuses each request for memory of a run; the number of faults."""
    begun = time.monotonic()
    counted = os.path.join(folder, "counted")
    whole = run(command, path, shim, {"COUNTED": counted})
    with open(counted, encoding="utf-8") as file:
        requests = int(file.read())
    faults = refused = 0
    for number in range(1, requests + 1):
        ended = run(command, path, shim, {"REFUSED": str(number)})
        wrong = fault(ended, whole)
        refused += ended[0] == 8
        if wrong:
            faults += 1
            print(f"{path}: request {number}: {wrong}")
    seconds = time.monotonic() - begun
    print(f"{path}: of {requests} requests {refused} were refused with status 8 and no output, {seconds:.0f} s")
    return faults


def main():
    """The command line."""
    parser = argparse.ArgumentParser(description=__doc__, formatter_class=argparse.RawDescriptionHelpFormatter)
    parser.add_argument("files", nargs="+", help="files to run")
    parser.add_argument("--program", default=os.path.join(TOP, "crates", "peano", "out", "peano"), help="the built program")
    parser.add_argument("--words", default="", help="words of the command line, in one argument")
    given = parser.parse_args()
    with tempfile.TemporaryDirectory() as folder:
        shim = shim_in(folder)
        command = [given.program, *given.words.split()]
        sys.exit(sum(check(command, path, shim, folder) for path in given.files) > 0)


if __name__ == "__main__":
    main()
