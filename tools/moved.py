#!/usr/bin/env python3
"""Compares the definitions and theorems of crates/machine with those of an earlier commit, wherever they stand now.

usage: python3 tools/moved.py COMMIT     at the top of the repository

Every line of specs/ and proofs/ that is no import, no comment and no `mod` counts, but for white space. What stands in one of the two and not
in the other is printed, with the file: nothing but that differs.
"""

import collections
import os
import re
import subprocess
import sys


def git(*words):
    return subprocess.run(["git", *words], capture_output=True, text=True, check=True).stdout


def lines(text):
    """The text in declarations' lines, each made one line where it goes on indented further, so that a new layout changes nothing."""
    kept = [it for it in text.split("\n") if it.strip() and not it.lstrip().startswith("--") and not re.match(r"(pub )?(use|mod) ", it)]
    whole = []
    for it in kept:
        if whole and len(it) - len(it.lstrip()) > 0:
            whole[-1] += " " + it.strip()
        else:
            whole.append(it.strip())
    return [re.sub(r"\s+", " ", it) for it in whole]


def main():
    if len(sys.argv) != 2:
        print(__doc__)
        return 2
    old, new = collections.Counter(), collections.Counter()
    where = {}
    for path in git("ls-tree", "-r", "--name-only", sys.argv[1], "crates/machine/specs", "crates/machine/proofs").split():
        for it in lines(git("show", f"{sys.argv[1]}:{path}")):
            old[it] += 1
            where[it] = path
    for folder, _, names in os.walk("crates/machine"):
        for name in names:
            if name.endswith(".antt") and "/out" not in folder:
                with open(os.path.join(folder, name), encoding="utf-8") as it:
                    for line in lines(it.read()):
                        new[line] += 1
                        where.setdefault(line, os.path.join(folder, name))
    for mark, these in (("-", old - new), ("+", new - old)):
        for it in these:
            print(f"{mark} {where[it]}: {it}")
    print(f"{sum(old.values())} lines then, {sum(new.values())} now, {sum((old - new).values())} gone, {sum((new - old).values())} new")
    return 0


if __name__ == "__main__":
    sys.exit(main())
