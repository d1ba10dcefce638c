#!/usr/bin/env python3
"""Brings the repository's own names in specs/, proofs/ and clauses to today's spelling: words in snake case, a dash only between two names.

usage: python3 tools/port_names.py [--list] [FOLDER]     (FOLDER: the top of a repository, the present one if none is given)

It goes over the files of crates/ as port.py left them, once. A name is one of the repository's own if a file of specs/ or proofs/ declares it: a definition,
a lemma, a constructor, a field, or a name below a `where`. `fromTo` becomes `from_to`, `within-add` becomes `within_add`; a dash stays where it joins two
names, one of which is a symbol (`count-++`), a fact (`After-bits`) or of several words (`bytes_of-number_of`). Names of the library and those that Rattle
makes stay. It stops, and writes nothing, where two names of a file would fall together.
"""

import collections
import os
import re
import sys

WORD = r"[^\s(){}.;,@\"«»\[\]]+"
TOKEN = re.compile(r"\"(?:[^\"\\\n]|\\.)*\"|" + WORD)
PREFIX = r"(?:(?:pub|abbrev|unfoldable|opaque) +)*"
# Letters that name a rule or a variable, not a type.
LETTERS = {"A": "a", "B": "b", "C": "c"}
# Plain words that follow a symbol.
PLAIN = {"assoc", "dist", "antisym", "is"}


def files(root, ends):
    for folder, dirs, names in os.walk(os.path.join(root, "crates")):
        dirs[:] = sorted(d for d in dirs if d not in ("out", "must-fail"))
        for name in sorted(names):
            if name.endswith(ends):
                yield os.path.join(folder, name)


def read(path):
    with open(path, encoding="utf-8") as f:
        return f.read()


def declared(text):
    """The names that a file declares: at the top and below a `where`; and, apart, the fields of records."""
    tops, fields, mode = set(), set(), None
    for line in re.sub(r"--[^\n]*", "", text).split("\n"):
        if not line.strip():
            continue
        if not line.startswith(" "):
            if m := re.match(PREFIX + r"(data|record|ruleset) +(\S+)", line):
                mode = m[1]
                tops.add(m[2])
            elif re.match(r"(pub )?(use|mod|infix\w*|syntax|unfolding)\b", line):
                mode = None
            else:
                mode = "definition"
                if m := re.match(PREFIX + r"((?:[^\s:(){}=]+ )+):(?: |$)", line):
                    tops.update(m[1].split())
        elif mode == "definition" and (m := re.match(r" +((?:[^\s:(){}=]+ )+): ", line)):
            if not re.match(r" *(let|in|λ)\b", line):
                tops.update(m[1].split())
        elif mode in ("record", "data") and (m := re.match(r" +(?:pub +)?((?:[^\s:(){}=]+ )+):(?: |$)", line)):
            (fields if mode == "record" else tops).update(m[1].split())
    return tops, fields


def snake(part):
    """A part of a name: camel case becomes snake case, a fact keeps its capitals."""
    if re.match(r"[a-z]", part):
        return re.sub(r"(?<=[a-z0-9'])([A-Z])", lambda m: "_" + m[1].lower(), part)
    return part


def turned(name):
    if name.startswith("+"):
        return name.replace("-", "_")
    parts = name.split("-")
    parts = [LETTERS.get(p, snake(p)) if len(parts) > 1 else snake(p) for p in parts]
    out = parts[0]
    for before, after in zip(parts, parts[1:]):
        word = lambda p: re.fullmatch(r"[A-Za-z0-9_']+", p)
        joins = not (word(before) and word(after)) or any(p != "T" and re.match("[A-Z]", p) for p in (before, after))
        joins = joins or any("_" in p for p in (before, after))
        if joins and after in PLAIN and not word(before):
            joins = False
        out += ("-" if joins else "_") + after
    return out


def module(root, path):
    """The name of the module that a file of specs/ or proofs/ is."""
    return "Rattle." + os.path.relpath(path, os.path.join(root, "crates"))[: -len(".antt")].replace("/", ".")


def imported(text):
    """The modules that a file takes names from, each with the names."""
    for m in re.finditer(r"(?m)^ *(?:pub )?(?:ghost )?use ([\w.+'<>-]+?)\.\{([^}]*)\}", text):
        yield m[1], [n.split(" as ")[0].strip() for n in m[2].split(",")]


def rewritten(texts, table, fields, plain):
    """The texts with the names of the table turned, and the names of each file that fall together."""
    out, together = {}, []
    for path, text in texts.items():
        is_rt = path.endswith(".rt")
        modules = set(re.findall(r"(?m)^ *(?:ghost )?use [\w.+'-]+\.([A-Z]\w*);?$", text)) | set(re.findall(r" as (\w+)", text))
        seen = collections.defaultdict(set)

        def one(m):
            word = m[0]
            if word.startswith('"'):
                return word
            before, after = text[max(0, m.start() - 200) : m.start()], text[m.end() : m.end() + 3]
            new = table.get(word, plain.get(path, {}).get(word, word))
            if before.endswith("."):
                head = re.search(r"([^\s(){}.;,\[\]]*)\.$", before)[1]
                if word not in fields and not re.match("[A-Z]", head) and head not in modules:
                    return word
                return new
            if new != word and re.search(r"[{;]\s*$", before) and re.match(r" [=:]", after) and word not in fields:
                return word
            # Rust's own names are in snake case already, and have a namespace of their own.
            if word not in fields and not after.startswith(".") and not (is_rt and new == word):
                seen[new].add(word)
            return new

        lines, at = [], 0
        for line in text.split("\n"):
            mark = "//" if is_rt else "--"
            found = re.search(r"(?<!\S)" + mark, line)
            cut = found.start() if found else len(line)
            head, tail = line[:cut], line[cut:]
            for m in reversed(list(TOKEN.finditer(text, at, at + cut))):
                head = head[: m.start() - at] + one(m) + head[m.end() - at :]
            # Of a comment only what stands in backquotes.
            tail = re.sub(r"`([^`]*)`", lambda q: "`" + TOKEN.sub(lambda w: table.get(w[0], w[0]), q[1]) + "`", tail)
            lines.append(head + tail)
            at += len(line) + 1
        out[path] = "\n".join(lines)
        together += [(path, sorted(names)) for names in seen.values() if len(names) > 1]
    return out, together


def main(argv):
    listing = "--list" in argv
    argv = [a for a in argv if a != "--list"]
    root = argv[0] if argv else "."
    own, fields, foreign = set(), set(), set()
    crates = set(os.listdir(os.path.join(root, "crates")))
    texts = {p: read(p) for p in files(root, (".antt", ".rt"))}
    for path, text in texts.items():
        if path.endswith(".antt"):
            a, b = declared(text)
            own |= a
            fields |= b
        for name, names in imported(text):
            head = name.split(".")
            made = re.search(r"\.(Goals|Given|Invariants|Tie|Lts[^.]*|Code|Met|Reads|Statement|Kinds)$", name) or "declared" in head
            if made or not (head[0] == "Rattle" and head[1] in crates):
                foreign.update(names)
    table = {n: turned(n) for n in own | fields if turned(n) != n and n not in foreign and "◌" not in n}
    skipped = sorted(n for n in own | fields if turned(n) != n and n in foreign)
    lemmas, plain = {}, {}
    while True:
        out, together = rewritten(texts, {**table, **lemmas}, fields, plain)
        # A lemma that would have its definition's name gets `_lem`: everywhere where it has a dash, and else where it comes from.
        before = (len(lemmas), sum(len(it) for it in plain.values()))
        for path, names in together:
            dashed = [n for n in names if "-" in n and n in table]
            lemmas.update({n: table[n] + "_lem" for n in dashed})
            for n in names if not dashed else []:
                if n in own and not re.search("[A-Z]", n):
                    homes = [m for m, its in imported(texts[path]) if n in its] or [module(root, path)]
                    for other, text in texts.items():
                        if module(root, other) in homes or any(m in homes and n in its for m, its in imported(text)):
                            plain.setdefault(other, {})[n] = n + "_lem"
        if before == (len(lemmas), sum(len(it) for it in plain.values())):
            break
    table.update(lemmas)
    if listing:
        for n in sorted(table):
            print(n, table[n])
        print("left, as the library has them:", ", ".join(skipped))
    faults = [f"{path}: {', '.join(sorted(names))}" for path, names in together]
    for f in sorted(faults):
        print("together:", f)
    if faults:
        return 1
    if not listing:
        for path, text in out.items():
            if text != texts[path]:
                with open(path, "w", encoding="utf-8") as f:
                    f.write(text)
    print(f"{len(table)} names, {len(lemmas)} of them lemmas that would have a definition's name")
    return 0


if __name__ == "__main__":
    raise SystemExit(main(sys.argv[1:]))
