#!/usr/bin/env python3
"""Counts, in src/ of all crates, the places that docs/DESIGN-PASS.md speaks of: design.py [--list] [COMMIT]
Without COMMIT it reads the working tree. With --list it prints each place as FILE:LINE: text."""
import re, subprocess, sys

args = [a for a in sys.argv[1:] if a != "--list"]
listed = "--list" in sys.argv


def git(*words):
    return subprocess.run(["git", *words], capture_output=True, text=True, check=True).stdout


def texts():
    if args:
        for f in git("ls-tree", "-r", "--name-only", args[0], "crates").split("\n"):
            if re.match(r"crates/[^/]+/src/.*\.rt$", f):
                yield f, git("show", f"{args[0]}:{f}")
    else:
        for f in git("ls-files", "crates").split("\n"):
            if re.match(r"crates/[^/]+/src/.*\.rt$", f):
                yield f, open(f, encoding="utf-8").read()


LINES = {
    "1 enums, each read: which are an Option or a Result": r"^\s*(pub |pub\(crate\) )?enum ",
    "1 arms that hand a refusal on": r"^\s*\S*(Refused|NoByte|NoNumber|NoEntry|Leftover|Missing|Grown|Left|Unknown|Sound)\b.*=>.*(Refused|NoNumber|NoByte|NoEntry|Leftover|Missing|Grown|Left)",
    "1 refusals as numbers": r"Refused\((u8|c|code|\d+)\)|\bcode: (u8|\d+)\b",
    "1 flags beside values": r"^\s*pub (good|leftover|chained|plain|holds|own|within): (bool|u8|usize|u16)",
    "1 numbers for kinds in patterns": r"^\s*\d+ => ",
    "1 numbers for kinds in tests": r"\b(tag|kind|more|flag|own|within)\b (==|!=|<) \d+",
    "3 loops by while or loop": r"^\s*(while|loop)\b",
    "4 fields copied one by one": r"^\s*\w+: (\w)\.\w+( as \w+)?,$",
    "6 places in a table by a stride": r"\b[2-6] \* \(?\w+",
    "7 matches on a step or a kind": r"match (step|next|tag|kind)\b",
}


def functions(text):
    """name, parameters, body with numbers and types folded"""
    lines = text.split("\n")
    i = 0
    while i < len(lines):
        m = re.match(r"(\s*)((pub |pub\(crate\) )?(extern \"C\" )?fn (\w+).*)$", lines[i])
        if not m:
            i += 1
            continue
        start, indent = i, m[1]
        head = ""
        while i < len(lines) and not re.match(re.escape(indent) + r"(\{|.*\{)$", lines[i]):
            head += lines[i] + " "
            i += 1
        if i < len(lines) and lines[i].strip() != "{":
            head += lines[i]
        body = []
        i += 1
        while i < len(lines) and lines[i] != indent + "}":
            body.append(lines[i].strip())
            i += 1
        inside = re.split(r"\)\s*(->|ensures|requires|where|\{|$)", head[head.index("(") + 1 :], maxsplit=1)[0]
        names = re.findall(r"(?:mut )?(\w+): ", re.sub(r"<[^>]*>", "", inside))
        if "self" in inside.split(",")[0]:
            names = ["self"] + names
        yield start + 1, m[5], names, " ".join(body)


def fold(name, body):
    body = re.sub(rf"\b{name}\b", "F", body)
    return re.sub(r"\b\d[\d_]*(u8|u16|u32|usize)?\b", "0", re.sub(r"\b(u8|u16|u32|usize)\b", "T", body))


GROUPS = {
    "5 functions that take macros, places, ways, rows": {"macros", "places", "ways", "rows"},
    "5 functions that take places, ways and a count": {"places", "ways", "n"},
    "5 functions that take places, ways, hints": {"places", "ways", "hints"},
    "5 functions that take names, rows, params": {"names", "rows", "params"},
    "5 functions that take bound, uses, spare": {"bound", "uses", "spare"},
    "5 functions that take a buffer and the place in it": {"at|o", "out|dst"},
}

files = list(texts())
counts, places = {}, {}
for what, pattern in LINES.items():
    found = []
    for f, t in files:
        for i, l in enumerate(t.split("\n"), 1):
            if not l.lstrip().startswith(("//", "ghost", "ensures", "requires")) and re.search(pattern, l):
                found.append(f"{f}:{i}: {l.strip()}")
    counts[what], places[what] = len(found), found
for what, group in GROUPS.items():
    found = []
    for f, t in files:
        for line, name, names, _ in functions(t):
            if all(set(g.split("|")) & set(names) for g in group):
                found.append(f"{f}:{line}: {name}")
    counts[what], places[what] = len(found), found
many = [f"{f}:{line}: {name} ({len(names)})" for f, t in files for line, name, names, _ in functions(t) if len(names) > 12]
counts["5 functions with more than twelve parameters"], places["5 functions with more than twelve parameters"] = len(many), many
alike = {}
for f, t in files:
    for line, name, names, body in functions(t):
        if len(body) > 20:
            alike.setdefault((len(names), fold(name, body)), []).append(f"{f}:{line}: {name}")
twins = [" ~ ".join(v) for v in alike.values() if len(v) > 1]
counts["2 functions alike but for types and numbers"] = sum(v.count(" ~ ") + 1 for v in twins)
places["2 functions alike but for types and numbers"] = twins
for what in sorted(counts):
    print(f"{counts[what]:5} {what}")
    if listed:
        for p in places[what]:
            print("        ", p)
