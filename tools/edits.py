#!/usr/bin/env python3
"""Says which must-fail edits cannot be applied: each 'old:' text stands once in its file, after the earlier pairs."""
import glob, re, sys
bad = 0
for e in sorted(glob.glob("crates/*/must-fail/*.edit")):
    crate, texts, file, old = e.split("/")[1], {}, None, None
    for line in open(e, encoding="utf-8").read().split("\n"):
        m = re.match(r"(file|old|new): ?(.*)$", line)
        if not m:
            continue
        if m[1] == "file":
            file = f"crates/{crate}/{m[2].strip()}"
        elif m[1] == "old":
            old = m[2]
        else:
            text = texts.get(file) or open(file, encoding="utf-8").read()
            if text.count(old) != 1:
                bad += 1
                print(e, text.count(old), repr(old))
            texts[file] = text.replace(old, m[2], 1)
print(bad, "bad")
sys.exit(bad > 0)
