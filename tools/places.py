#!/usr/bin/env python3
"""Lists the places in src/ that an older language would have left: python3 tools/places.py [COMMIT]

For each point a line with its count, then the places. With a commit the tree of that commit is read, else the tree as it stands.
"""
import collections, re, subprocess, sys

def files(commit):
    if commit:
        names = subprocess.run(["git", "ls-tree", "-r", "--name-only", commit], capture_output=True, text=True).stdout.split()
    else:
        names = subprocess.run(["git", "ls-files", "-co", "--exclude-standard"], capture_output=True, text=True).stdout.split()
    for name in sorted(names):
        if re.match(r"crates/\w+/src/.*\.rt$", name):
            if commit:
                text = subprocess.run(["git", "show", f"{commit}:{name}"], capture_output=True, text=True).stdout
            else:
                text = open(name).read()
            yield name, text

def lines(tree, pattern):
    return [(f"{name}:{n}", line.strip()) for name, text in tree for n, line in enumerate(text.split("\n"), 1) if re.search(pattern, line)]

def functions(tree):
    """name, line, head and body of each function that has a body"""
    for name, text in tree:
        for m in re.finditer(r"\bfn (\w+)", text):
            depth, i, head = 0, m.end(), None
            while i < len(text):
                c = text[i]
                if c == ";" and depth == 0:
                    break
                if c == "{":
                    line_start = text.rfind("\n", 0, i) + 1
                    if depth == 0 and not re.search(r"\b(requires|ensures)\b", text[line_start:i]):
                        head, start = text[m.start():i], i
                        break
                    depth += 1
                elif c == "}":
                    depth -= 1
                i += 1
            if head is None:
                continue
            depth, j = 0, start
            while True:
                depth += {"{": 1, "}": -1}.get(text[j], 0)
                j += 1
                if depth == 0:
                    break
            yield f"{name}:{text.count(chr(10), 0, m.start()) + 1}", m.group(1), head, text[start:j]

def twins(tree):
    """functions of one name, or of one crate, whose bodies differ only in constants, types and modules"""
    groups = collections.defaultdict(list)
    for place, name, head, body in functions(tree):
        if re.search(r"/tests\.rt|main\.rt", place) or re.search(r"\bfn (main|fmt)\b", head):
            continue
        shape = re.sub(r"//[^\n]*", "", body)
        shape = re.sub(r"\b(\w+)::", "", shape)
        shape = re.sub(r"\b[A-Z]\w*\b|\b\d[\d_]*\b|\bself\.\w+ = ", "X", shape)
        shape = re.sub(r"\s+", "", shape)
        params = re.sub(r"\s+", "", re.sub(r"<.*?>|\b[A-Z]\w*\b", "", head[head.find("("):head.find(")") + 1]))
        if shape in ("{X}", "{self.X}") and "ensures" in head and name not in ("end",):
            continue
        groups[(shape, params)].append((place, name))
    return [(p, n) for g in groups.values() if len(g) > 1 for p, n in sorted(g)]

def facts(tree):
    """facts that stand in the contracts of three or more functions, with those functions"""
    found = collections.defaultdict(set)
    for name, text in tree:
        for m in re.finditer(r"\bfn (\w+)[^;{]*?((?:\s*(?:requires|ensures)[^\n]*)+)", text):
            place = f"{name}:{text.count(chr(10), 0, m.start()) + 1} {m.group(1)}"
            for clause in re.findall(r"requires(?: \w+)? \{ (.*) \}", m.group(2)):
                for fact in re.split(r" × ", clause):
                    fact = fact.strip("() ")
                    fact = re.sub(r"\b(now|old|new)\b", "_", fact)
                    fact = re.sub(r"\b99999\b|\b100000\b|\b12\b|\b13\b", "N", fact)
                    found[fact].add(place)
    return [(p, f) for f, ps in sorted(found.items()) if len(ps) >= 3 for p in sorted(ps)]

def travelling(tree):
    """three or more parameters that stand together in three or more functions"""
    sets = {}
    for place, name, head, body in functions(tree):
        ps = frozenset(re.findall(r"(\w+): (?:i64|u64|i32|u32|u16|u8|bool|usize|Row)\b", head[head.find("("):head.find(")") + 1] if ")" in head else ""))
        if len(ps) >= 2 and "tests.rt" not in place:
            sets[f"{place} {name}"] = ps
    out = {}
    for a, pa in sets.items():
        for b, pb in sets.items():
            both = pa & pb
            if a < b and len(both) >= 2 and sum(both <= p for p in sets.values()) >= 3:
                for k, p in sets.items():
                    if both <= p:
                        out[k] = " ".join(sorted(both))
    return sorted(out.items())

POINTS = [
    ("1a numbers for kinds", lambda t: lines(t, r"const KIND: u8|kind: u8|fn kind\(")),
    ("1b numbers for fields, 0 for none, and flags beside values", lambda t: lines(t, r"Fault::new\([^)]*Field, \d|0 where (none|there|it has|no )|minus: bool|Neither = 0|-> usize$")),
    ("1c results and options taken to pieces by hand", lambda t: lines(t, r"Ok\(\w+\) => Ok\(\w+\)|let Ok\(.*\) = |if let None = |if let Some\(_\) = |Err\(cause\) =>|Err\(_\) => (Err|false)|let Some\(row\) = row else")),
    ("2 twins", twins),
    ("3 loops that count by hand", lambda t: lines(t, r"^\s*('\w+: )?while |for \w+ in [\w.]+\.\.|for _ in ")),
    ("4 order, conversion and printing by hand", lambda t: lines(t, r"fn (precedes|ranked|is_earlier|compare|read|date|number|place)\(|^(pub(\(crate\))? )?struct (Era|Mark|Pair|Written|Refusal)\(|\{tens\}")),
    ("5a facts in three contracts or more", facts),
    ("5b parameters that travel together", travelling),
    ("6 buffers with a length, parallel fields, searches by hand", lambda t: lines(t, r"^\s*len: usize,|rows\[\w+ - 1\]|rows\[self\.len|^\s+(gregorian|julian|coptic|islamic|hebrew|french|iso): Tally,|chunk\[0\.\.")),
    ("7 steps chosen by a switch, tables of functions", lambda t: lines(t, r"match \(?self\.state|match self \{|: fn\(|tallies\.\w+\)\?;|^\s+self\.(gregorian|julian|coptic|islamic|hebrew|french|iso)$")),
]

if __name__ == "__main__":
    tree = list(files(sys.argv[1] if len(sys.argv) > 1 else None))
    for title, find in POINTS:
        places = find(tree)
        print(f"{title}: {len(places)}")
        for place, what in places:
            print(f"    {place}  {what}")
