#!/usr/bin/env python3
"""Brings the repository's own definitions and lemmas to the spelling of the library: types in camel case, everything else
in snake case. Run once, at the top, after the kit's port.py:

    python3 tools/respell.py          rewrites crates/ and the pages
    python3 tools/respell.py --list   prints the map of names, and names that would fall together

Names that the kit makes (goals, steps) and names of the library keep their spelling, and so do functions, strings,
inputs and outputs. Comments and pages are turned only between backticks.
"""

import glob
import re
import sys

WORD = r"[^\s(){}\[\].,;:|@«»⟦⟧`]+"
DECLARED = re.compile(r"^\s*(?:(?:abbrev|unfoldable|pub|private|data|record)\s+)*(" + WORD + r")(?:\s*[({][^:]*:[^)}]*[)}])*\s*:\s+(.*)$")
IMPORT = re.compile(r"^\s*(?:ghost )?use ([\w.'+-]+)\.\{([^}]*)\}")
MADE = {"c", "l", "w", "g", "goal", "need"}
# variables of definitions
VARIABLES = {"after-leap"}


def texts():
    found = []
    for kind in ("src/**/*.rt", "specs/**/*.antt", "proofs/**/*.antt"):
        found += glob.glob("crates/*/" + kind, recursive=True)
    return sorted(found)


def respelled(name):
    if name[0].isupper():
        first, *rest = name.split("-")
        return first + "".join(w[:1].upper() + w[1:] for w in rest)
    return name.replace("-", "_")


def own_names(paths):
    own, library, goals = {}, set(), set()
    for path in paths:
        with open(path, encoding="utf-8") as f:
            text = f.read()
        for line in text.split("\n"):
            m = IMPORT.match(line)
            if m:
                for alias in re.findall(r" as (" + WORD + ")", m.group(2)):
                    own.setdefault(alias, []).append(path)
                crate = m.group(1).split(".")[1] if m.group(1).startswith("Rattle.") else ""
                if not glob.glob("crates/" + crate + "/") or not crate:
                    library |= {n.strip().split(" as ")[0] for n in m.group(2).split(",")}
                continue
            m = path.endswith(".antt") and DECLARED.match(line)
            if not m or "-" not in m.group(1).strip("-") or m.group(1) in ("--", "->"):
                continue
            if re.match(r"(goal|need)\.", m.group(2)):
                goals.add(m.group(1))
            else:
                own.setdefault(m.group(1), []).append(path)
    names = {n: respelled(n) for n in own if n not in library and re.search(r"[^\W\d_]-\w", n)}
    names |= {n: respelled(n) for n in VARIABLES}
    return names, library, goals, own


def turn_code(text, names):
    out, last = [], 0
    for m in re.finditer(WORD, text):
        word = m.group(0)
        new = names.get(word.rstrip("'"))
        if new is None:
            continue
        before = re.search(r"([\w'-]+)\.$", text[: m.start()])
        if before and before.group(1) in MADE:
            continue
        out += [text[last : m.start()], new + word[len(word.rstrip("'")) :]]
        last = m.end()
    return "".join(out) + text[last:]


def turn_ticked(text, names):
    return re.sub(r"`[^`\n]*`", lambda m: turn_code(m.group(0), names), text)


def turn(path, text, names):
    mark = "//" if path.endswith(".rt") else "--"
    lines = []
    for line in text.split("\n"):
        if line.lstrip().startswith(mark):
            lines.append(turn_ticked(line, names))
        elif path.endswith(".rt") and '"' in line:
            lines.append(line)
        else:
            lines.append(turn_code(line, names))
    return "\n".join(lines)


def main():
    paths = texts()
    names, library, goals, own = own_names(paths)
    if "--list" in sys.argv:
        for n in sorted(names):
            print(n, "->", names[n], " ".join(sorted(set(own.get(n, [])))))
        words = {}
        for path in paths:
            with open(path, encoding="utf-8") as f:
                for m in re.finditer(WORD, f.read()):
                    words.setdefault(m.group(0), set()).add(path)
        for n in sorted(names):
            if names[n] in words:
                print("falls together:", n, names[n], *sorted(words[names[n]]))
            if n in goals:
                print("also a goal:", n)
        for n in sorted(set(own) & library):
            print("the library's:", n)
        return
    for path in paths:
        with open(path, encoding="utf-8") as f:
            text = f.read()
        new = turn(path, text, names)
        if new != text:
            with open(path, "w", encoding="utf-8") as f:
                f.write(new)
    for path in ["README.md"] + sorted(glob.glob("docs/*.md")):
        with open(path, encoding="utf-8") as f:
            text = f.read()
        new = turn_ticked(text, names)
        if new != text:
            with open(path, "w", encoding="utf-8") as f:
                f.write(new)


main()
