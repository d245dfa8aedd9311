#!/usr/bin/env python3
"""Gives the branch of crates/rules/specs/Base.antt the name if'. Rattle's library has an `if` of its own, which always unfolds; this one stays folded in a proof
until it is named, and rt ci wants another name for it.

usage: tools/own_if.py [ROOT]      once, after tools/respell.py
"""
import pathlib, re, sys

CRATES = pathlib.Path(sys.argv[1] if len(sys.argv) > 1 else ".").resolve() / "crates"
WORD = re.compile(r"(?<![\w'?◌-])if(?=◌then◌else◌| )(?![\w'?-])")


def antt(line):
    """A line of antt: what stands before its comment."""
    code, mark, comment = line.partition("--")
    return WORD.sub("if'", code) + mark + comment


def rust(line):
    """A line of Rust has the word where it imports it, and in a clause."""
    return WORD.sub("if'", line) if "if◌then◌else◌" in line or re.search(r"\bif [^{]* then ", line) else line


def edit(path):
    lines, put = path.read_text().split("\n"), str
    for n, line in enumerate(lines):
        if line.startswith("file: "):
            put = antt if line.endswith(".antt") else str
        elif line.startswith(("old: ", "new: ")):
            lines[n] = line[:5] + put(line[5:])
    return "\n".join(lines)


def main():
    for path in sorted(CRATES.rglob("*")):
        if path.suffix in (".antt", ".rt", ".edit") and "out" not in path.relative_to(CRATES).parts:
            old = path.read_text()
            new = edit(path) if path.suffix == ".edit" else "\n".join(map(antt if path.suffix == ".antt" else rust, old.split("\n")))
            if new != old:
                path.write_text(new)


main()
