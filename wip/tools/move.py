#!/usr/bin/env python3
"""move.py ROOT CRATE FROM TO NAME..: moves public definitions (with the comment above) from crates/CRATE/FROM.antt to crates/CRATE/TO.antt (specs/X or proofs/X), and mends the imports everywhere."""
import os, re, sys, glob
root, crate, src, dst = sys.argv[1:5]
names = sys.argv[5:]
os.chdir(root)
def path(p): return f"crates/{crate}/{p}.antt"
def blocks(text):
    """split in header (comments+uses) and blocks separated by blank lines at top level"""
    lines = text.split("\n")
    # header: leading comment lines, then use lines
    i = 0
    while i < len(lines) and (lines[i].startswith("--") or lines[i].startswith("use ") ): i += 1
    head = lines[:i]
    rest = "\n".join(lines[i:])
    parts = [p for p in re.split(r"\n\s*\n", rest.strip("\n")) if p.strip()]
    return head, parts
text = open(path(src)).read()
head, parts = blocks(text)
def declares(p):
    out = []
    for m in re.finditer(r"^ *(?:(?:abbrev|unfoldable) )?pub (?:(?:record|data) )?([^\s:]+)", p, flags=re.M):
        if not m.group(0).startswith(" "): out.append(m.group(1))
    return out
moved = [p for p in parts if any(n in names for n in declares(p))]
got = [n for p in moved for n in declares(p)]
for p in moved:
    extra = [n for n in declares(p) if n not in names]
    if extra: print("note: block also declares", extra)
missing = [n for n in names if n not in got]
if missing: print("MISSING", missing); sys.exit(1)
stay = [p for p in parts if p not in moved]
cons = []  # constructors
for p in moved:
    if re.search(r"^pub data ", p, flags=re.M): cons += re.findall(r"^  ([^\s:]+) :", p, flags=re.M)
allnames = got + cons
open(path(src), "w").write("\n".join(head) + "\n\n" + "\n\n".join(stay) + "\n" if stay else "\n".join(head) + "\n")
if os.path.exists(path(dst)):
    t = open(path(dst)).read().rstrip("\n") + "\n\n" + "\n\n".join(moved) + "\n"
else:
    uses = [l for l in head if l.startswith("use ")]
    t = "-- TODO\n" + "\n".join(uses) + "\n\n" + "\n\n".join(moved) + "\n"
open(path(dst), "w").write(t)
# imports everywhere
def mods(p):
    tree, name = p.split("/", 1); name = name.replace("/", ".")
    return [f"Rattle·{crate}.{tree}.{name}", f"Rattle·{crate}·{tree}.{tree}.{name}"]
srcm, dstm = mods(src), mods(dst)
def choose(file, which):
    """module path of dst as seen from file"""
    own = file.startswith(f"crates/{crate}/")
    return dstm[1] if own else dstm[0]
for file in glob.glob("crates/**/*.antt", recursive=True) + glob.glob("crates/**/*.rt", recursive=True):
    t = open(file).read(); old = t
    for m in srcm:
        pat = re.compile(r"^((?:ghost )?use )" + re.escape(m) + r"\.\{([^}]*)\}(;?)$", re.M)
        def fix(k):
            items = [x.strip() for x in k.group(2).split(",") if x.strip()]
            mv = [x for x in items if x.split(" as ")[0] in allnames]
            st = [x for x in items if x not in mv]
            out = []
            if st: out.append(f"{k.group(1)}{m}.{{{', '.join(st)}}}{k.group(3)}")
            if mv and file != path(dst):
                out.append(f"{k.group(1)}{choose(file, 0)}.{{{', '.join(mv)}}}{k.group(3)}")
            return "\n".join(out) if out else ""
        t = pat.sub(fix, t)
    if t != old:
        t = re.sub(r"^\n(?=(?:ghost )?use )", "", t, flags=re.M)
        open(file, "w").write(t)
print("moved", got, "constructors", cons)
