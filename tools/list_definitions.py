#!/usr/bin/env python3
"""Writes the tables of docs/MODEL.md anew from the definitions that they list; with --check it writes nothing, and ends with
status 1 where a table is not what the files say.

Below a line that names a file of specs/ in backquotes stands a table: a row for each public definition of that file that has
a comment, in order, with the comment's words. What stands between the tables is written by hand."""
import os
import re
import sys

FILE = re.compile(r"`(crates/\w+/specs/\w+\.antt)`")
DEFINITION = re.compile(r"\s*(?:abbrev pub|unfoldable pub|pub record|pub data|pub)\s+(\w+)")


def definitions_of(path):
    """The public definitions of a file, in order, each with its comment."""
    found, comment, fields = [], [], None
    with open(path, encoding="utf-8") as it:
        for line in it.read().split("\n"):
            text, indent = line.strip(), len(line) - len(line.lstrip())
            if text and fields is not None and indent <= fields:
                fields = None
            if text.startswith("-- "):
                comment.append(text[3:])
                continue
            named = DEFINITION.match(line)
            if named and fields is None and not text.startswith(("pub use", "pub mod", "pub open", "module")):
                found.append((named.group(1), " ".join(comment)))
                if text.startswith(("pub record", "pub data")):
                    fields = indent
            comment = []
    return found


def table_of(path):
    """The table of a file's definitions."""
    rows = [f"| `{name}` | {words} |" for name, words in definitions_of(path) if words]
    return ["| definition | meaning |", "|---|---|", *rows]


def renewed(text):
    """The document with its tables anew."""
    lines, out, at = text.split("\n"), [], 0
    while at < len(lines):
        out.append(lines[at])
        named = FILE.fullmatch(lines[at])
        at += 1
        if not named:
            continue
        while at < len(lines) and not lines[at]:
            out.append(lines[at])
            at += 1
        if at < len(lines) and lines[at].startswith("| definition |"):
            while at < len(lines) and lines[at].startswith("|"):
                at += 1
            out += table_of(named.group(1))
    return "\n".join(out)


def main():
    os.chdir(os.path.join(os.path.dirname(os.path.abspath(__file__)), ".."))
    with open("docs/MODEL.md", encoding="utf-8") as it:
        text = it.read()
    new = renewed(text)
    if sys.argv[1:] != ["--check"]:
        with open("docs/MODEL.md", "w", encoding="utf-8") as it:
            it.write(new)
    elif new != text:
        print("list_definitions: docs/MODEL.md is not what the definitions say: run tools/list_definitions.py", file=sys.stderr)
        return 1
    return 0


if __name__ == "__main__":
    sys.exit(main())
