#!/usr/bin/env python3
"""Respells the repository's own definitions and lemmas as today's Rattle spells them: words in snake case. Run once, after the kit's port.py.

usage: python3 tools/respell.py       at the top of a checkout in which port.py has run

What is declared in crates/*/specs and crates/*/proofs with a name in mixed case (placeByte, hasId-true) gets the name in snake case
(place_byte, has_id-true) wherever an .antt file, a `ghost use` line or a clause of a .rt file names it, and in the lines of a must-fail edit
that stand for a file of specs/ or proofs/. Names of specs/ with dashes get underscores where no other name has that spelling. Functions of src/, exported names, strings,
inputs and outputs keep their names. Where the new name is already that of a lemma, the lemma gets the ending `_lem`.
Prints each old and new name.
"""

import collections
import os
import re
import sys

WORD = r"A-Za-z0-9_'\u2032\u2080-\u2099"
TOKEN = re.compile(rf"(?<![{WORD}-])([A-Za-z_][{WORD}]*(?:-[{WORD}]+)*)(?!\.[A-Z])")
DECLARED = re.compile(rf"^\s*(?:unfoldable )?(?:abbrev )?(?:pub )?(?:unfoldable )?([A-Za-z_][{WORD}-]*) :(?= |$)")
KEPT_CAPITALS = re.compile(r"^[A-Z]")


def files(root, ending):
    for folder, dirs, names in os.walk(os.path.join(root, "crates")):
        dirs[:] = sorted(d for d in dirs if d != "out")
        for n in sorted(names):
            if n.endswith(ending):
                yield os.path.join(folder, n)


def read(path):
    with open(path, encoding="utf-8") as f:
        return f.read()


def snake_part(part):
    if KEPT_CAPITALS.match(part):
        return part
    return re.sub(r"(?<=[a-z0-9])(?=[A-Z])", "_", part).lower()


def snake(name):
    return "-".join(snake_part(p) for p in name.split("-"))


def declarations(root):
    found = collections.defaultdict(set)
    for path in files(root, ".antt"):
        for line in read(path).splitlines():
            m = DECLARED.match(line)
            if m:
                found[m.group(1)].add(path)
    return found


def renamings(root):
    found = declarations(root)
    new = {}
    others = {snake(name) for name in found if "-" not in name}
    for name, paths in found.items():
        to = snake(name)
        plain = to.replace("-", "_")
        if plain not in found and plain not in others and any(os.sep + "specs" + os.sep in p for p in paths):
            to = plain
        if to != name:
            new[name] = to
    back = collections.defaultdict(list)
    for name, to in new.items():
        back[to].append(name)
    for to, names in back.items():
        if len(names) > 1:
            sys.exit(f"respell: {names} fall together as {to}")
    return new, found


def lemmas(root, new, found):
    """The lemmas whose name a definition takes in a file that names both: for each file, what is turned there beside the rest."""
    more = collections.defaultdict(dict)
    for name, to in new.items():
        for path in found.get(to, ()):
            module = os.path.basename(path)[: -len(".antt")]
            imports = re.compile(rf"\.{module}\.\{{[^}}]*(?<![{WORD}-]){re.escape(to)}(?![{WORD}-])")
            users = [path] + [p for p in files(root, ".antt") if p != path and imports.search(read(p))]
            if any(name in TOKEN.findall(read(p)) for p in users):
                for p in users:
                    more[p][to] = to + "_lem"
    return more


def turned(text, new):
    return TOKEN.sub(lambda m: new.get(m.group(1), m.group(1)), text)


def clause_end(text, at):
    """Where the braces that open at `at` close."""
    depth = 0
    for i in range(at, len(text)):
        depth += {"{": 1, "}": -1}.get(text[i], 0)
        if depth == 0:
            return i + 1
    sys.exit("respell: braces that do not close")


def turn_rt(text, new):
    """Turns `ghost use` items, the braces of clauses, and names in mixed case in comments."""
    mixed = {k: v for k, v in new.items() if re.search(r"[a-z0-9][A-Z]", k)}
    spans = [m.span() for m in re.finditer(r"(?m)^ *ghost use [^;]*;", text)]
    for m in re.finditer(r"(?m)^ *(?:requires|ensures|ghost)\b(?! use)[^\n{]*\{", text):
        spans.append((m.end() - 1, clause_end(text, m.end() - 1)))
    spans.sort()
    out, last = [], 0
    for a, b in spans + [(len(text), len(text))]:
        out.append(re.sub(r"//.*", lambda m: turned(m.group(0), mixed), text[last:a]))
        out.append(turned(text[a:b], new))
        last = b
    return "".join(out)


def turn_edit(text, new):
    out = []
    of_antt = False
    for line in text.split("\n"):
        if line.startswith("file: "):
            of_antt = line.rstrip().endswith(".antt")
        elif of_antt and line[:5] in ("old: ", "new: "):
            line = line[:5] + turned(line[5:], new)
        elif re.match(r"^(old|new): *(requires|ensures|ghost)\b", line):
            line = line[:5] + turned(line[5:], new)
        out.append(line)
    return "\n".join(out)


def main():
    root = os.getcwd()
    if not os.path.isdir(os.path.join(root, "crates")):
        sys.exit("respell: run it at the top of the repository")
    new, found = renamings(root)
    more = lemmas(root, new, found)
    for ending, turn in ((".antt", turned), (".rt", turn_rt), (".edit", turn_edit)):
        for path in files(root, ending):
            text = read(path)
            to = turn(text, new | more.get(path, {}))
            if to != text:
                with open(path, "w", encoding="utf-8") as f:
                    f.write(to)
    for name in sorted(new):
        print(name, new[name])
    for path, names in sorted(more.items()):
        for name in names:
            print(os.path.relpath(path, root), name, names[name])


if __name__ == "__main__":
    main()
