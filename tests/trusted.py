#!/usr/bin/env python3
"""What a reader must believe: the definitions that the entries' contracts and the theorems of `demands` use, with all that these use in turn.

    python3 tests/trusted.py            prints the files in reading order, each after what it uses, with the sentence that it opens with
    python3 tests/trusted.py --write    writes the list into docs/TRUSTED.md
    python3 tests/trusted.py --check    'N passed, M failed': docs/TRUSTED.md is up to date, each file opens with its sentence, no statement uses a
                                        definition of proofs/, and no file of the list has a definition that no statement reaches

A statement is the contract of an exported entry (crates/sheets_c/src/lib.rt) or the type of a public theorem of crates/demands/proofs.
"""
import os
import re
import sys

from tally import tally

ROOT = os.path.dirname(os.path.dirname(os.path.abspath(__file__)))
LIST = os.path.join(ROOT, "docs", "TRUSTED.md")
BEGIN, END = "<!-- the list: tests/trusted.py --write -->\n", "<!-- the end of the list -->\n"
USE = re.compile(r"^(?:ghost )?use ([^\s;{}]+?)(?:\.\{([^}]*)\})?;?$", re.M)
WORD = re.compile(r"[^\s(){}\[\],;]+")
DECLARED = re.compile(r"^( *)(?:(?:abbrev|unfoldable) )?pub (?:(record|data) )?([^\s:]+)", re.M)


def read(path):
    with open(os.path.join(ROOT, path), encoding="utf-8") as f:
        return f.read()


def folder(path):
    """The files of a folder of antt, its root Lib.antt left out."""
    names = sorted(os.listdir(os.path.join(ROOT, path)))
    return [path + "/" + name for name in names if name.endswith(".antt") and name != "Lib.antt"]


def place(module):
    """The file of a module of this repository, and None for one of the language's libraries. A type that code declares is in its src/."""
    parts = re.fullmatch(r"Rattle\.(\w+)\.(specs|proofs)\.(declared)?\.?(.*)", module)
    if not parts or parts[1] == "std":
        return None
    crate, tree, declared, rest = parts.groups()
    return "crates/%s/src/lib.rt" % crate if declared else "crates/%s/%s/%s.antt" % (crate, tree, rest.replace(".", "/"))


class Source:
    """A file: what its names stand for, and its declarations."""

    def __init__(self, path):
        self.path, self.text = path, read(path)
        self.names, self.modules = {}, {}
        for module, given in USE.findall(self.text):
            where = place(module)
            if where is None:
                continue
            if not given:
                self.modules[module.split(".")[-1]] = where
            for name in filter(None, (name.strip() for name in given.split(","))):
                old, _, new = name.partition(" as ")
                self.names[new or old] = (where, old)
        self.declared = self.declarations() if path.endswith(".antt") else {}

    def declarations(self):
        """Each public declaration by its name and by the names of its constructors: the text up to the next one."""
        text = re.sub(r"^(ghost )?use .*$|^ *--.*$", "", self.text, flags=re.M)
        found = list(DECLARED.finditer(text))
        top = [m for m in found if not self.inside(m, found)]
        parts = {}
        for m, end in zip(top, [m.start() for m in top[1:]] + [len(text)]):
            body = text[m.start():end]
            parts[m.group(3)] = body
            if m.group(2) == "data":
                parts.update({name: body for name in re.findall(r"^ +([^\s:]+) :", body, flags=re.M)})
        return parts

    @staticmethod
    def inside(match, found):
        """A field of a record is no declaration of its own."""
        before = [m for m in found if m.start() < match.start() and len(m.group(1)) < len(match.group(1))]
        return bool(before) and before[-1].group(2) == "record"

    def used(self, text):
        """The definitions that a text names, each a file and a name; a theorem names none of its own file."""
        out = set()
        for word in WORD.findall(text):
            for name in (word, word.lstrip("."), word.rstrip(".")):
                if name in self.names:
                    out.add(self.names[name])
                if name in self.declared and "/specs/" in self.path:
                    out.add((self.path, name))
                alias, _, rest = name.partition(".")
                if rest and alias in self.modules:
                    out.add((self.modules[alias], rest))
        return out


def public_modules():
    return ["crates/demands/proofs/%s.antt" % name for name in re.findall(r"^pub mod (\S+)$", read("crates/demands/proofs/Lib.antt"), flags=re.M)]


def theorem_types(text):
    """The types of public theorems, and the parameters that they stand under."""
    lines, out = re.sub(r"^ *--.*$", "", text, flags=re.M).split("\n"), []
    at = 0
    while at < len(lines):
        header = re.match(r"^( *)(?:pub (\S+) :|module _)", lines[at])
        at += 1
        if not header:
            continue
        out.append(lines[at - 1][header.end():])
        indent = len(header.group(1))
        while at < len(lines) and len(lines[at]) - len(lines[at].lstrip()) > indent and header.group(2):
            out.append(lines[at])
            at += 1
    return "\n".join(out)


def statements():
    """Each source of statements with the text of its statements."""
    entries = read("crates/sheets_c/src/lib.rt")
    yield "crates/sheets_c/src/lib.rt", "\n".join(re.findall(r"extern \"C\".*?^\{", entries, flags=re.M | re.S))
    for path in public_modules():
        yield path, theorem_types(read(path))


def closure():
    """All definitions that statements reach, and for each file of them the files that it uses."""
    sources, reached, todo, uses = {}, set(), [], {}

    def source(path):
        if path not in sources:
            sources[path] = Source(path)
        return sources[path]

    for path, text in statements():
        todo += [(d, path) for d in source(path).used(text)]
    while todo:
        (path, name), by = todo.pop()
        if by != path and not by.startswith("crates/demands/proofs") and by != "crates/sheets_c/src/lib.rt":
            uses.setdefault(by, set()).add(path)
        if (path, name) in reached:
            continue
        reached.add((path, name))
        uses.setdefault(path, set())
        if "/specs/" in path:
            text = source(path).declared.get(name, "")
            todo += [(d, path) for d in source(path).used(text)]
    return sources, reached, uses


def in_order(uses):
    """The files in an order in which each comes after what it uses; crates as crates.txt has them."""
    crates = [line.split(":")[0].split()[0] for line in read("crates.txt").splitlines() if ":" in line.split("#")[0]]
    out = []

    def visit(path):
        if path in out:
            return
        for other in sorted(uses[path], key=key):
            visit(other)
        out.append(path)

    def key(path):
        return (crates.index(path.split("/")[1]), path)

    for path in sorted(uses, key=key):
        visit(path)
    return [path for path in out if not path.endswith(".rt")], sorted(path for path in out if path.endswith(".rt"))


def sentence(path):
    """What a file opens with."""
    lines = []
    for line in read(path).splitlines():
        if not line.startswith("-- "):
            break
        lines.append(line[3:])
    return " ".join(lines)


def listing():
    sources, reached, uses = closure()
    files, codes = in_order(uses)
    lines = sum(read(path).count("\n") for path in files)
    rows = ["%d files, %d lines, in reading order:\n" % (len(files), lines), "| File | Lines | What it says |", "|---|--:|---|"]
    rows += ["| [%s](../%s) | %d | %s |" % (path[len("crates/"):], path, read(path).count("\n"), sentence(path)) for path in files]
    types = {path: sorted(name for where, name in reached if where == path) for path in codes}
    declared = "; ".join("`%s` of %s" % ("`, `".join(n for n in types[path] if n[0].isupper()), path.split("/")[1]) for path in codes)
    rows.append("\nTypes that the code declares, in its src/lib.rt: %s." % declared)
    others = [path for crate in sorted({line.split(":")[0].split()[0] for line in read("crates.txt").splitlines() if ":" in line.split("#")[0]})
              if os.path.isdir(os.path.join(ROOT, "crates", crate, "specs")) for path in folder("crates/%s/specs" % crate) if path not in files]
    rows += ["\nStages of the code, which nobody has to believe: the functions' own contracts cite them, and the proofs lead from them to the files above.\n",
             "| File | What it says |", "|---|---|"]
    rows += ["| [%s](../%s) | %s |" % (path[len("crates/"):], path, sentence(path)) for path in others]
    return files, "\n".join(rows) + "\n"


def unreached():
    """Definitions of the list's files that no statement reaches, and files of proofs/ that a statement reaches."""
    sources, reached, uses = closure()
    mixed = []
    for path in uses:
        if "/proofs/" in path:
            mixed += ["%s: %s stands in proofs/" % (path, name) for where, name in sorted(reached) if where == path]
        elif path.endswith(".antt"):
            texts = {source_text for where, name in reached if where == path for source_text in [sources[path].declared.get(name)]}
            mixed += ["%s: %s is reached by no statement" % (path, name) for name, text in sources[path].declared.items() if text not in texts]
    return mixed


def main(words):
    files, text = listing()
    if words == ["--write"]:
        page = open(LIST, encoding="utf-8").read()
        head, _, rest = page.partition(BEGIN)
        with open(LIST, "w", encoding="utf-8") as f:
            f.write(head + BEGIN + "\n" + text + END + rest.partition(END)[2])
        return 0
    if words == ["--check"]:
        faults = unreached()
        for fault in faults:
            print(fault)
        page = open(LIST, encoding="utf-8").read()
        kept = page.partition(BEGIN)[2].partition(END)[0] == "\n" + text
        if not kept:
            print("docs/TRUSTED.md is out of date: python3 tests/trusted.py --write")
        return tally([kept, not faults, *(bool(sentence(path)) for path in files)])
    print(text)
    return 0


if __name__ == "__main__":
    sys.exit(main(sys.argv[1:]))
