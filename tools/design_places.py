#!/usr/bin/env python3
"""Counts the places in src/ that docs/DESIGN-PASS.md speaks of, point by point, and with --list names each with its file and line."""
import collections
import glob
import itertools
import re
import sys

LISTED = "--list" in sys.argv[1:]
ROOTS = sorted(glob.glob("crates/*/src/*.rt"))
TEXTS = {path: open(path, encoding="utf-8").read() for path in ROOTS}


def told(name, places):
    print(f"{name}: {len(places)}")
    if LISTED:
        for place in places:
            print(f"  {place}")


def lines(pattern, leave_out=None):
    found = []
    for path, text in TEXTS.items():
        for number, line in enumerate(text.split("\n"), 1):
            if re.search(pattern, line) and not (leave_out and re.search(leave_out, line)):
                found.append(f"{path}:{number}: {line.strip()}")
    return found


def functions():
    """Each function with a contract: its path, name, parameters and the text of its clauses."""
    form = r"fn (\w+)(?:<[^(]*>)?\(([^{]*?)\)\s*(?:->[^{]*?)?\s*\n((?:\s+(?:requires|ensures)\b[\s\S]*?\}\n)+)\{"
    for path, text in TEXTS.items():
        for match in re.finditer(form, text):
            yield path, match[1], match[2], match[3]


def parts(clause):
    """The facts of a clause, which are joined by a cross outside of brackets."""
    depth, part = 0, ""
    for letter in clause:
        depth += letter in "([{"
        depth -= letter in ")]}"
        if letter == "×" and depth == 0:
            yield part
            part = ""
        else:
            part += letter
    yield part


def plain(fact):
    fact = re.sub(r"\s+", " ", fact.strip())
    if fact.startswith("(") and fact.endswith(")"):
        fact = fact[1:-1]
    return re.sub(r"\.(now|old|new)\b", "", fact)


def facts():
    where = collections.defaultdict(set)
    for path, name, _, clauses in functions():
        for clause in re.findall(r"requires\s*(?:\w+\s*)?\{([\s\S]*?)\}\n", clauses):
            for fact in parts(clause):
                where[plain(fact)].add(f"{path}::{name}")
    return [f"{len(there)} times: {fact}" for fact, there in sorted(where.items(), key=lambda entry: -len(entry[1])) if len(there) >= 3 and fact]


def groups(size, least):
    """Parameters that stand together in the lists of so many functions."""
    where = collections.Counter()
    for _, _, parameters, _ in functions():
        names = [part.split(":")[0].replace("mut", "").strip() for part in parameters.split(",") if ":" in part]
        where.update(itertools.combinations(names, size))
    return [f"{count} times: {', '.join(names)}" for names, count in where.most_common() if count >= least]


told("1  own enums", lines(r"^(pub )?enum "))
told("1  refusals handed on as numbers", lines(r"\b(Refused|Over)\("))
told("1  answers put together of an item and a code", lines(r"as u64 \* 256|return (40|41|42|52|55);"))
told("1  answers that are 0 for none", lines(r"^\s*//.*(0 where|0 for|0 stands for none|; n where|counted from 1)"))
told("1  kinds, modes, ways, levels and codes as numbers", lines(r"\b(kind|mode|way|level|code|entry): u(8|32|64)"))
told("2  twins by the lengths of their lists", lines(r"fn \w+_(few|many)\b"))
told("2  frames found by a loop", lines(r"let mut f = Frame"))
told("3  loops that are no for", lines(r"\bwhile\b.*\{"))
told("4  equality, order and conversion by hand", lines(r"fn (wide|bits|signed|lower|higher|least|greatest|pick|less|swap|one|apart|pattern|bound|held|shift|number|clear)\("))
told("5  facts of three contracts and more", facts())
told("5  parameters that travel together, by threes, in ten functions and more", groups(3, 10))
told("6  lists lent in pairs", lines(r"\b(from|fs|us|begins): &(mut )?\["))
told("6  a length beside a list", lines(r"\[\.\.[a-z]"))
told("7  switches of steps", lines(r"match (slot|way|which|wanted|entry)|if (way|level) == |if turns"))
told("8  proofs that walk the code by hand", sorted(glob.glob("crates/*/proofs/**/Proof.antt", recursive=True)))
told("8  proofs by invariants and answers", sorted(glob.glob("crates/*/proofs/**/Answers.antt", recursive=True)))
