#!/usr/bin/env python3
"""The layers of the library: what crates.txt says of them holds, and the README has their picture.

    python3 tests/layers.py --check [--root FOLDER]    do the rules below hold, and is the picture up to date? 'N passed, M failed'
    python3 tests/layers.py --write [--root FOLDER]    draws the picture between the two marker lines of README.md
    python3 tests/layers.py --faults                   is each fault noticed that is planted in the sample below? 'N passed, M failed'

In crates.txt a line '# layer NAME: what it holds' heads the crates of a layer, from the first layer to the last:

    # layer whole: whole numbers, and sums over lists
    whole:
    whole_order: whole
    # layer plane: points, edges and boundaries
    plane: whole
    # layer table: the triangle table
    table: whole plane
    table_sides: whole_order table
    # layer reader: a program
    reader: table_sides
    reader_c staticlib: table_sides

The rules. A layer has one heading and some crate. A crate stands under a heading, and is named like its layer or begins with its name and '_'. It depends
only on crates of earlier lines, so that nothing uses a later layer. Some file of it uses each crate that it depends on: by
'Rattle.NAME.' in definitions, contracts and proofs, by 'NAME::' or 'use NAME' in code. A static library has the word staticlib behind its name.
"""
import argparse
import glob
import os
import re
import sys
import tempfile

from tally import tally

ROOT = os.path.dirname(os.path.dirname(os.path.abspath(__file__)))
HEADING = re.compile(r"# layer (\w+): \S")
COMMENT = re.compile(r"//.*|(?:^|(?<=\s))--.*", re.M)
OLD_PICTURE = "README.md: the picture of the layers is not up to date (tests/layers.py --write)"
BEGIN, END = "<!-- layers: drawn from crates.txt by tests/layers.py --write -->\n", "<!-- end of layers -->\n"


def text_of(*path):
    with open(os.path.join(*path), encoding="utf-8") as f:
        return f.read()


def listed(root):
    """The layers in their order; the crates in theirs, each with its layer, '' before the first heading, its name and what it depends on."""
    layers, crates = [], []
    for line in text_of(root, "crates.txt").splitlines():
        if line.startswith("# layer "):
            # A heading that is not of this form names no layer that its crates could be named like.
            heading = HEADING.match(line)
            layers.append(heading[1] if heading else line)
        name, colon, depends = line.split("#")[0].partition(":")
        if colon:
            crates.append((layers[-1] if layers else "", name.split()[0], depends.split()))
    return layers, crates


def files_of(root, crate):
    """What stands in the files of a crate, comments left out: in all of them, and in its code alone."""
    paths = (glob.glob(os.path.join(root, "crates", crate, "**", ending), recursive=True) for ending in ("*.rt", "*.antt"))
    code, logic = (COMMENT.sub("", "\n".join(map(text_of, some))) for some in paths)
    return code + logic, code


def uses(files, name):
    """Do the files of a crate use the crate of that name?"""
    everything, code = files
    return bool(re.search(r"Rattle\.%s\." % name, everything) or re.search(r"(?<![\w:])%s\s*::|\buse\s+%s\b" % (name, name), code))


def rules(root, layers, crates):
    """Each rule for each layer, crate and dependency: whether it holds, and what is wrong where it doesn't."""
    yield layers != [], "crates.txt has no heading '# layer NAME: what it holds'"
    for layer in layers:
        yield layers.count(layer) == 1, "%s has two headings" % layer
        yield any(its == layer for its, _, _ in crates), "%s has no crate" % layer
    earlier = set()
    for layer, name, depends in crates:
        yield layer != "", "%s stands under no heading" % name
        yield name == layer or name.startswith(layer + "_"), "%s is not named like its layer, '%s'" % (name, layer)
        files = files_of(root, name)
        for other in depends:
            yield other in earlier, "%s depends on %s, which stands on no earlier line" % (name, other)
            yield uses(files, other), "%s depends on %s, and no file of it uses that" % (name, other)
        earlier.add(name)


def arrows(layers, crates):
    """For each layer the earlier ones that it uses, but for those that one of these reaches."""
    home = {name: layer for layer, name, _ in crates}
    reached, drawn = {}, {}
    for layer in layers:
        used = {home[other] for its, _, depends in crates if its == layer for other in depends if home.get(other) in reached}
        reached[layer] = used.union(*(reached[other] for other in used))
        drawn[layer] = [other for other in layers if other in used and not any(other in reached[by] for by in used)]
    return drawn


def picture(layers, crates):
    """A node for each layer with its rooms, the last layer first, and an arrow from a layer to each that it uses."""
    lines = ["```mermaid", "flowchart TD"]
    for layer in reversed(layers):
        rooms = [name[len(layer) + 1:] for its, name, _ in crates if its == layer and name != layer]
        lines.append('    %s["%s"]' % (layer, "<br/>".join([layer, ", ".join(rooms)] if rooms else [layer])))
    for layer, others in reversed(arrows(layers, crates).items()):
        lines += ["    %s --> %s" % (layer, other) for other in reversed(others)]
    return "\n".join([*lines, "```", ""])


def with_picture(root, layers, crates):
    """The README with the picture between its marker lines; None where it has not the two, once each."""
    readme = text_of(root, "README.md")
    if readme.count(BEGIN) != 1 or readme.count(END) != 1 or readme.index(END) < readme.index(BEGIN):
        return None
    return readme[:readme.index(BEGIN)] + BEGIN + picture(layers, crates) + readme[readme.index(END):]


def outcomes(root):
    """The outcome of each rule, and of the picture: whether it holds, and what is wrong where it doesn't."""
    layers, crates = listed(root)
    yield from rules(root, layers, crates)
    yield with_picture(root, layers, crates) == text_of(root, "README.md"), OLD_PICTURE


def check(root):
    found = list(outcomes(root))
    for holds, wrong in found:
        if not holds:
            print(wrong)
    return [holds for holds, _ in found]


def write(root):
    readme = with_picture(root, *listed(root))
    if readme is None:
        sys.exit("README.md wants these two lines, once each:\n%s%s" % (BEGIN, END))
    with open(os.path.join(root, "README.md"), "w", encoding="utf-8") as f:
        f.write(readme)


# ---- the sample with its picture, and what is planted in it
PICTURE = """```mermaid
flowchart TD
    reader["reader<br/>c"]
    table["table<br/>sides"]
    plane["plane"]
    whole["whole<br/>order"]
    reader --> table
    table --> plane
    plane --> whole
```
"""
SAMPLE = {
    "crates.txt": "".join(line[4:] + "\n" for line in __doc__.split("the last:\n\n")[1].split("\n\nThe rules")[0].split("\n")),
    "README.md": "# A sample\n" + BEGIN + PICTURE + END,
    "crates/whole/src/lib.rt": "",
    "crates/whole_order/specs/Order.antt": "use Rattle.whole.specs.Sums.{sum}\n",
    "crates/plane/proofs/Lib.antt": "use Rattle.whole.proofs.Tests.{by_equal}\n",
    "crates/table/src/lib.rt": "use plane::Corner;\nghost use Rattle.whole.specs.Sums.{All};\n",
    "crates/table_sides/src/lib.rt": "fn first() -> u32 {\n    table::first(whole_order::least())\n}\n",
    "crates/reader/src/main.rt": "fn main() {\n    table_sides::first();\n}\n",
    "crates/reader_c/src/lib.rt": "pub extern \"C\" fn first() -> u32 {\n    table_sides::first()\n}\n",
}
# A file, a text of it, the text in its place, and what must be found wrong.
FAULTS = [
    ("crates.txt", "# layer whole: whole numbers, and sums over lists\n", "", "whole stands under no heading"),
    ("crates.txt", "# layer plane: points", "# layer plane, points", "plane is not named like its layer, '# layer plane, points, edges and boundaries'"),
    ("crates.txt", "# layer plane: points, edges and boundaries\n", "", "plane is not named like its layer, 'whole'"),
    ("crates.txt", "# layer reader:", "# layer read:", "reader is not named like its layer, 'read'"),
    ("crates.txt", "plane: whole\n# layer table", "plane: whole\n# layer plane: a second time\n# layer table", "plane has two headings"),
    ("crates.txt", "# layer reader", "# layer paper: nothing\n# layer reader", "paper has no crate"),
    ("crates.txt", "whole:\n", "whole: plane\n", "whole depends on plane, which stands on no earlier line"),
    ("crates.txt", "table: whole plane\n", "table: whole plane table_sides\n", "table depends on table_sides, which stands on no earlier line"),
    ("crates.txt", "reader: table_sides", "reader: table_sides paper", "reader depends on paper, which stands on no earlier line"),
    ("crates.txt", "reader: table_sides", "reader: table_sides table", "reader depends on table, and no file of it uses that"),
    ("crates/whole_order/specs/Order.antt", "use Rattle", "-- use Rattle", "whole_order depends on whole, and no file of it uses that"),
    ("crates/whole_order/specs/Order.antt", "Rattle.whole.", "Rattle.whole_numbers.", "whole_order depends on whole, and no file of it uses that"),
    ("crates/table/src/lib.rt", "use plane::", "use crate::plane::", "table depends on plane, and no file of it uses that"),
    ("crates.txt", "plane: whole\n", "plane: whole\nplane_exact:\n", OLD_PICTURE),
    ("README.md", "plane --> whole", "whole --> plane", OLD_PICTURE),
    ("README.md", END, "", OLD_PICTURE),
]


def lay(root, files):
    for path, content in files.items():
        os.makedirs(os.path.join(root, os.path.dirname(path)), exist_ok=True)
        with open(os.path.join(root, path), "w", encoding="utf-8") as f:
            f.write(content)


def wrong_in(files):
    with tempfile.TemporaryDirectory() as root:
        lay(root, files)
        return [wrong for holds, wrong in outcomes(root) if not holds]


def draws():
    """Is the sample's picture drawn where there is none?"""
    with tempfile.TemporaryDirectory() as root:
        lay(root, {**SAMPLE, "README.md": SAMPLE["README.md"].replace(PICTURE, "")})
        write(root)
        return text_of(root, "README.md") == SAMPLE["README.md"]


def faults():
    """Has the sample nothing wrong, is its picture drawn, and is each fault noticed for what it is?"""
    found = [wrong_in(SAMPLE) == [], draws()]
    for path, old, new, expected in FAULTS:
        assert SAMPLE[path].count(old) == 1, (path, old)
        found.append(expected in wrong_in({**SAMPLE, path: SAMPLE[path].replace(old, new)}))
        if not found[-1]:
            print("not noticed: %s" % expected)
    return found


def main():
    parser = argparse.ArgumentParser(description=__doc__, formatter_class=argparse.RawDescriptionHelpFormatter)
    way = parser.add_mutually_exclusive_group(required=True)
    for name in ("--check", "--write", "--faults"):
        way.add_argument(name, action="store_true")
    parser.add_argument("--root", default=ROOT)
    asked = parser.parse_args()
    if asked.write:
        return write(asked.root)
    return tally(faults() if asked.faults else check(asked.root))


if __name__ == "__main__":
    sys.exit(main())
