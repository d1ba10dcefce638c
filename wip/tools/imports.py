#!/usr/bin/env python3
"""imports.py FILE..: drops names that a file imports and doesn't use, joins imports of one module, drops doubled blank lines under the imports."""
import re, sys
EDGE = r"(?<![^\s()\[\]{},.;⌜⌝])%s(?![^\s()\[\]{},.;⌜⌝])"
for f in sys.argv[1:]:
    s = open(f).read()
    body = re.sub(r"(?m)^(ghost )?use [^\n{]*(\.\{[^}]*\})?;?$", "", s)
    body = re.sub(r"(?m)^\s*(--|//).*$", "", body)
    def used(n):
        name = n.split(" as ")[-1].strip()
        if name == "[]": return "[]" in body
        if "_" in name and name.strip("_") != name or re.match(r"^_.*_$", name):
            parts = [p for p in name.split("_") if p]
            return all(re.search(EDGE % re.escape(p), body) for p in parts)
        return re.search(EDGE % re.escape(name), body) is not None
    seen = {}
    lines = []
    for line in s.split("\n"):
        m = re.match(r"^((?:ghost )?use )([^\n{]*?)\.\{([^}]*)\}(;?)$", line)
        if not m:
            lines.append(line); continue
        names = [n.strip() for n in m.group(3).split(",") if n.strip()]
        keep = [n for n in names if used(n)]
        key = (m.group(1), m.group(2))
        if key in seen:
            i, old = seen[key]
            old += [n for n in keep if n not in old]
            lines[i] = f"{m.group(1)}{m.group(2)}.{{{', '.join(old)}}}{m.group(4)}"
            continue
        if not keep: continue
        seen[key] = (len(lines), keep)
        lines.append(f"{m.group(1)}{m.group(2)}.{{{', '.join(keep)}}}{m.group(4)}")
    t = re.sub(r"\n\n\n+", "\n\n", "\n".join(lines))
    if t != s: open(f, "w").write(t); print("changed", f)
