#!/usr/bin/env python3
"""Writes the lists at the end of docs/DESIGN-PASS.md anew, behind its line "## Old and new side by side".
They say which functions, signatures, clauses, ghost members, definitions and lemmas differ between the commit in the page's first line and the
working tree. The kit's port/contracts.py compares; lemmas, which it does not read, are compared here."""
import glob, json, os, re, subprocess, sys, tempfile

PAGE, MARK = "docs/DESIGN-PASS.md", "## Old and new side by side\n"
page = open(PAGE, encoding="utf-8").read()
commit = page.split("\n", 1)[0]
# the folder of the page that `rt doc` names
kit = os.path.dirname(subprocess.run(["rt", "doc"], capture_output=True, text=True, check=True).stdout.split("\n", 1)[0].strip())


def squeezed(x):
    return " ".join(str(x).split()).replace("|", "\\|")


def clauses(cs):
    return "; ".join((c[0] + " " if c[0] else "") + squeezed(c[1]) for c in cs) or "(none)"


def lemmas(root):
    """the statement of each lemma of proofs/ outside the folders of functions' answers, by crate and name"""
    out = {}
    for f in glob.glob(root + "/crates/*/proofs/**/*.antt", recursive=True):
        if os.path.basename(f) in ("Answers.antt", "Invariants.antt", "Lib.antt"):
            continue
        crate = f[len(root) :].split("/")[2]
        lines = re.sub(r"--.*", "", open(f, encoding="utf-8").read()).split("\n")
        for i, l in enumerate(lines):
            m = re.match(r"( *)(?:pub )?([^\s:(){}=]+) : (.*)$", l)
            if not m or m[2] in ("abbrev", "data", "record"):
                continue
            said = [m[3]]
            for k in lines[i + 1 :]:
                if not re.match(m[1] + r" +\S", k) or re.match(r"\s*unfolding ", k):
                    break
                said.append(k)
            out.setdefault((crate, m[2]), " ".join(" ".join(said).split()))
    return out


with tempfile.TemporaryDirectory() as old:
    archive = subprocess.run(["git", "archive", commit], capture_output=True, check=True).stdout
    subprocess.run(["tar", "x", "-C", old], input=archive, check=True)
    said = subprocess.run([sys.executable, kit + "/port/contracts.py", old, ".", "--json"], capture_output=True, text=True, check=True).stdout
    was, now = lemmas(old), lemmas(".")
r = json.loads(said)
out = [MARK, "\nWritten by `tools/design_changes.py`; where one line stands below another, the first is the old text and the second the new one.\n"]
out.append(f"\nOf {len(r['contracts the same']) if isinstance(r['contracts the same'], list) else r['contracts the same']} functions the contract is the same to the letter. Fewer `ensures`: {len(r['fewer ensures'])}; more `requires`: {len(r['more requires'])}; no longer `pub`: {len(r['no longer pub'])}.\n")
out.append("\n### Signatures\n\n")
for f, a, b in r["signatures changed"]:
    out.append(f"- `{f}`\n  - `{squeezed(a)}`\n  - `{squeezed(b)}`\n")
out.append("\n### Clauses\n\n")
for f, ra, ea, rb, eb in r["contracts changed"]:
    out.append(f"- `{f}`\n")
    for word, a, b in (("requires", ra, rb), ("ensures", ea, eb)):
        if a != b:
            out.append(f"  - {word} `{clauses(a)}`\n  - {word} `{clauses(b)}`\n")
out.append("\n### Definitions\n\n")
for row in r["definitions"]["changed"]:
    out.append(f"- `{' '.join(row[:-2])}`\n  - `{squeezed(row[-2][0] if isinstance(row[-2], list) else row[-2])}`\n  - `{squeezed(row[-1][0] if isinstance(row[-1], list) else row[-1])}`\n")
for title, ks in (
    ("Lemmas of proofs/ that are restated, by crate", [k for k in was.keys() & now.keys() if was[k] != now[k]]),
    ("Lemmas of proofs/ that went, by crate", was.keys() - now.keys()),
):
    out.append(f"\n### {title}\n\n")
    by = {}
    for c, n in sorted(ks):
        by.setdefault(c, []).append(f"`{n}`")
    for c, ns in by.items():
        out.append(f"- `{c}`: {', '.join(ns)}\n")
if MARK not in page:
    page += "\n" + MARK
open(PAGE, "w", encoding="utf-8").write(page[: page.index(MARK)] + "".join(out))
