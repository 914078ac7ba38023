#!/usr/bin/env python3
"""Brings the repository's own definitions and lemmas to today's spelling, after the kit's port.py has run.

usage: python3 tools/respell.py [--list]     at the top of the repository, once, with everything committed

Names that specs/*.antt and the lemma files proofs/*.antt declare, at the top level or inside another definition, get snake case: placeOf
becomes place_of, older-same becomes older_same. Types and modules keep their capitals. What stands in for a name is the same everywhere: in .antt
files, in clauses and `ghost use` lines of .rt files. Names of the library, of Rust sources and of goals are not touched. The script stops where two
names of one file would fall together. A lemma that would have its function's name gets _lem. --list prints the names, old and new, and
changes nothing.
"""

import os
import re
import sys

SPLIT = re.compile(r"([\s(){}\[\],;:.]+)")
DECLARED = re.compile(r"^\s*(?:(?:abbrev|unfoldable|pub|data|record|ruleset)\s+)*([^\s:(){}.,;]+)((?:\s+\{[^}]*\})*)\s*[:=](?:\s|$)")
FIELD = re.compile(r"[({]\s*((?:[^\s:(){}.,;]+\s+)+):\s")


def files(ending):
    for folder, dirs, names in os.walk("crates"):
        dirs[:] = sorted(d for d in dirs if d != "out")
        for name in sorted(names):
            if name.endswith(ending):
                yield os.path.join(folder, name)


def is_lemma_file(path):
    """A file of specs/, or of proofs/ that is not the proof of a function."""
    return path.endswith(".antt") and os.path.basename(path) not in ("Proof.antt", "Answers.antt", "Invariants.antt")


def parts(path, text):
    """The text in pieces (piece, whether a name in it may be turned): not in the path of a `use` line, nor behind a dot in a function's proof."""
    for line in re.split(r"(\n)", text):
        head = re.match(r"\s*(?:ghost )?(?:pub )?use [^\s{;]+", line)
        if head:
            yield head[0], False
            line = line[len(head[0]) :]
        last = ""
        for it in SPLIT.split(line):
            yield it, not (last.endswith(".") and not is_lemma_file(path)) and not SPLIT.fullmatch(it)
            last = it


def words(path, text):
    return {it for it, free in parts(path, text) if free and it}


def spelled(name):
    """The name in snake case; a type keeps its capital."""
    if not re.match(r"[a-z]", name):
        return re.sub(r"-", "_", name) if re.match(r"[A-Z]", name) and "-" in name else name
    name = name.replace("-", "_")
    return re.sub(r"([a-z0-9'])([A-Z])", lambda m: m[1] + "_" + m[2].lower(), name)


def main():
    texts = {p: open(p, encoding="utf-8").read() for p in [*files(".antt"), *files(".rt")]}
    declared, foreign = set(), set()
    for path, text in texts.items():
        for line in text.split("\n"):
            if line.strip().startswith("--"):
                continue
            used = re.match(r"(?:ghost )?(?:pub )?use ([^\s{]+?)\.?\{([^}]*)\}", line.strip())
            if used and not re.match(r"Rattle\.(%s)\.(specs|proofs)\b" % "|".join(os.listdir("crates")), used[1]):
                foreign |= {it.strip() for it in used[2].split(",")}
            elif is_lemma_file(path) and not line.lstrip().startswith(("use ", "pub use ")):
                found = DECLARED.match(line)
                if found:
                    declared.add(found[1])
                for group in FIELD.findall(line):
                    declared |= set(group.split())
    of_rust = set()
    for path in files(".rt"):
        of_rust |= set(re.findall(r"[A-Za-z_]\w*", re.sub(r"//.*|ghost use .*", "", texts[path])))
    turned = {it: spelled(it) for it in declared if spelled(it) != it and it not in foreign and re.search(r"[A-Z-]", it)}
    # a lemma, whose name has a dash or had one, beside the function of its name
    functions = {spelled(it) for it in turned if re.search(r"[a-z'][A-Z]", it) and "-" not in it}
    for it in declared - foreign:
        if spelled(it) in functions and not re.search(r"[a-z'][A-Z]", it):
            turned[it] = spelled(it) + "_lem"
        elif "-" in it and it in turned and spelled(it) in declared:
            turned[it] = spelled(it) + "_lem"
    wrong = 0
    for path, text in texts.items():
        if not is_lemma_file(path):
            continue
        there = words(path, text)
        made = {}
        for it in there:
            made.setdefault(turned.get(it, it), set()).add(it)
        for new, olds in made.items():
            if len(olds) > 1:
                print(f"{path}: {' '.join(sorted(olds))} fall together as {new}")
                wrong += 1
    whole = {}
    for it in declared | foreign:
        whole.setdefault(turned.get(it, it), set()).add(it)
    for new, olds in sorted(whole.items()):
        if len(olds) > 1:
            print(f"fall together as {new}: {' '.join(sorted(olds))}")
    if "--list" in sys.argv:
        for it in sorted(turned):
            print(f"{it} {turned[it]}{' (a name of Rust sources too)' if turned[it] in of_rust else ''}")
        return 0
    if wrong:
        print(f"respell: {wrong} names fall together: nothing was changed")
        return 1
    turn = lambda part, path="x.rt": "".join(turned.get(it, it) if free else it for it, free in parts(path, part))
    # in a comment only what can be nothing but a name: with a capital inside, or between backticks
    said = lambda part: re.sub(r"`[^`]*`", lambda m: turn(m[0]), "".join(turned.get(it, it) if re.search(r"[a-z][A-Z]", it) else it for it in SPLIT.split(part)))
    for path, text in texts.items():
        lines, in_clause = [], False
        for line in text.split("\n"):
            if path.endswith(".antt"):
                code, mark, rest = line.partition("--") if re.search(r"(^|\s)--(\s|$)", line) else (line, "", "")
                lines.append(turn(code, path) + mark + said(rest))
                continue
            begins = re.match(r"\s*(ghost use |requires\b|ensures\b)", line)
            code, mark, rest = line.partition("//")
            lines.append((turn(code) if begins or in_clause else code) + mark + said(rest))
            opened = line.count("{") - line.count("}")
            if begins and opened > 0 and not line.rstrip().endswith("{"):
                in_clause = True
            elif in_clause and opened < 0:
                in_clause = False
        with open(path, "w", encoding="utf-8") as to:
            to.write("\n".join(lines))
    print(f"respell: {len(turned)} names")
    return 0


if __name__ == "__main__":
    sys.exit(main())
