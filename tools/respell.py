#!/usr/bin/env python3
"""Brings the repository's own definitions and lemmas to today's spelling, after port.py: run once, at the top.

usage: python3 tools/respell.py               turns the names by tools/respelled.tsv
       python3 tools/respell.py make FOLDER..   writes that table anew from the names of the folders' crates

A name that specs/ or proofs/ declare is in snake case. A dash stays where it joins two names, each of which the
declaration itself speaks of (`length-put` says something of `length` and of `put`); every other dash is `_`. Types keep
their capitals. Functions of src/, strings and comments' prose keep their words; a comment's code span turns. A name that
would meet another one in a file gets `_lem` where it is a lemma's and `_of` where it is a definition's; what meets all the
same is printed and stays.
Names that only a Proof.antt declares are left: those files were written for the older check.
"""
import collections, glob, os, re, sys

MARKS = r"(?:(?:pattern|unfoldable|abbrev|pub) )*"
NAME = r"[^\s(){}.;,@\"«»:]+"
DECL = re.compile(rf"^( *)(?!(?:pub )?(?:data|record|module|use|open|let|where|mutual|in)\b){MARKS}({NAME}(?: {NAME})*)(?: \{{[^{{}}\n]*\}})? :(?= )(.*(?:\n\1 .*)*)", re.M)
TYPE = re.compile(rf"^ *(?:pub )?(?:data|record) ({NAME})", re.M)
OPS = {"++": "append", "∷": "cons", "[]": "nil", "+": "add", "-": "sub", "*": "mul", "≤": "le", "<": "lt", "⊎": "or", "×": "and", "&&": "and", "||": "or", "%": "mod", "/": "div"}
TOKEN = re.compile(r'"(?:[^"\\\n]|\\.)*"|--[^\n]*|//[^\n]*|[^\s(){}.;,@"«»]+')
SPAN = re.compile(r"`[^`\n]+`")
SPECIAL = {"getD": "get_or"}

TABLE = os.path.join(os.path.dirname(os.path.abspath(__file__)), "respelled.tsv")
MAKE = sys.argv[1:2] == ["make"]

def files():
    return sorted(f for top in (sys.argv[2:] if MAKE else ["."]) for part in ("specs/**/*.antt", "proofs/**/*.antt", "src/**/*.rt")
        for f in glob.glob(f"{top}/crates/*/{part}", recursive=True))

def snake(s):
    s = SPECIAL.get(s, s)
    return re.sub(r"(?<=[a-z0-9'])[A-Z]", lambda m: "_" + m[0].lower(), s)

def words(text):
    out = set()
    for t in re.findall(r"[^\s(){}.;,@\"«»]+", text):
        out.add(snake(t)); out.add(OPS.get(t, t))
    return out

def spelled(name, said):
    parts = name.split("-")
    if any(p == "" for p in parts):
        return name
    parts = [snake(p) for p in parts]
    r = parts[0]
    for a, b in zip(parts, parts[1:]):
        r += ("-" if a in said and b in said else "_") + b
    return r

texts = {f: open(f, encoding="utf-8").read() for f in files()}
said = collections.defaultdict(set)
fields, lemma, everywhere = set(), {}, set()
for f, t in texts.items():
    if not f.endswith(".antt"):
        continue
    own = f.endswith("Proof.antt")
    body = re.sub(r"--[^\n]*", "", t)
    for m in DECL.finditer(body):
        for n in m[2].split():
            if own or n[0].isupper() and "-" not in n:
                continue
            said[n] |= words(m[3])
            lemma[n] = lemma.get(n, True) and "/proofs/" in f
            if m[1]:
                fields.add(n)
for f in texts:
    for m in re.finditer(r"\bfn (\w+)", texts[f]) if f.endswith(".rt") else ():
        everywhere.add(m[1])
table = {}

def tokens(t):
    return {m[0] for m in TOKEN.finditer(t) if not m[0].startswith(('"', "--", "//"))}

def make():
    global table
    table = {n: spelled(n, s) for n, s in said.items() if ("-" in n or re.search(r"[a-z0-9][A-Z]", n)) and not n[0].isupper() and re.match(r"[A-Za-zₐ-ₜ0-9_'-]+$", n)}
    table = {a: b for a, b in table.items() if a != b}

    def meetings(table):
        met = set()
        for f, t in texts.items():
            if f.endswith("Proof.antt"):
                continue
            seen = {}
            for w in tokens(t):
                to = table.get(w, w)
                if to in seen and seen[to] != w:
                    met.add((to, frozenset((w, seen[to])), f))
                seen[to] = w
        return met

    for turn in range(6):
        met = meetings(table)
        if not met:
            break
        for to, pair, f in sorted(met, key=str):
            turning = sorted((w for w in pair if w in table), key=lambda w: (not lemma.get(w), w))
            if not turning:
                continue
            w = turning[0]
            if turn < 3 and table[w] == to:
                table[w] = to + ("_lem" if lemma.get(w) else "_of")
            elif turn >= 3 and w in table:
                print("left:", w, "would meet in", f); del table[w]
    for to, pair, f in sorted(meetings(table), key=str):
        print("left: a meeting at", to, sorted(pair), f)
    with open(TABLE, "w", encoding="utf-8") as f:
        for a, b in sorted(table.items()):
            f.write(f"{a}\t{b}\t{'field' if a in fields else ''}\n")

if MAKE:
    make()
    print(len(table), "names")
    raise SystemExit
for line in open(TABLE, encoding="utf-8"):
    a, b, kind = line.rstrip("\n").split("\t")
    table[a] = b
    (fields.add if kind else fields.discard)(a)

def turn_text(t, antt, proof):
    def sub(m):
        w = m[0]
        if w.startswith('"'):
            return w
        if w.startswith(("--", "//")):
            return SPAN.sub(lambda s: re.sub(r"[^\s(){}.;,@\"«»`]+", lambda x: table.get(x[0], x[0]), s[0]), w)
        if w not in table:
            return w
        if proof and m.start() and t[m.start() - 1] == "." and (w not in fields or re.search(r"(?:\bbefore|\bc|tie|lts|reads|kinds)\.$", t[max(0, m.start() - 20) : m.start()])):
            return w
        return table[w]
    return TOKEN.sub(sub, t)

n = 0
for f, t in texts.items():
    new = turn_text(t, f.endswith(".antt"), f.endswith("Proof.antt"))
    if new != t:
        n += 1
        open(f, "w", encoding="utf-8").write(new)
print(len(table), "names,", n, "files")
