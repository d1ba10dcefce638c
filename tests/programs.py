#!/usr/bin/env python3
"""The C++ checker and the Rust gate: the verdict, listing and status of each sheet are those of the independent program, in both; and sheets that they write after
repair are alike, clean, and have the areas that the independent program lists after repair.

What they do with files that are no sheets, with names of any bytes, with long files, and where memory, disk or patience end, is tried with them.

    python3 tests/programs.py CHECKER GATE FOLDER             'N passed, M failed'; FOLDER has 500 sheets of every kind and 16 of the largest, and blobs of them
    python3 tests/programs.py --sheets CHECKER GATE FOLDER    the same of the verdicts, listings and repaired sheets alone, on whatever sheets and blobs FOLDER has

CHECKER and GATE are commands, with an emulator before them where one is needed.
"""
import contextlib
import glob
import json
import os
import pty
import random
import re
import resource
import select
import signal
import socket
import struct
import subprocess
import sys
import tempfile
import time
import unicodedata

import independent
from independent import ROOT
from tally import tally

EXAMPLES = os.path.join(ROOT, "examples")
READ_CAP = 196_608

# ---------------------------------------------------------------------------------------------------------------- what is expected


def refusals():
    """What the item of each code is, and its sentence."""
    with open(os.path.join(ROOT, "include", "refusals.def"), encoding="ascii") as f:
        return {int(code): (item, sentence) for code, item, sentence in re.findall(r'^SHEETS_REFUSAL\((\d+), (\w+), "(.*)"\)$', f.read(), re.M)}


def refused(code, item, position=None):
    """A refusal as both programs print it, with a position exactly for the codes of reading."""
    kind, sentence = refusals()[code]
    assert (position is not None) == (1 <= code <= 8)
    at = "" if position is None else " at byte {:,}".format(position)
    member = {0: "the sheet's own header", 1: "member 1, the triangle table"}.get(item, "member %d" % item)
    named = {"TRIANGLE": "triangle %d" % item, "POLYGON": "polygon %d" % item}.get(kind, member)
    return "refused %d %d%s: %s" % (code, item, at, sentence.replace("{}", named))


# What both programs print of a file without a byte.
EMPTY = refused(1, 0, 0)


def told(verdict):
    """The independent program's verdict as both programs print it."""
    word, *numbers = verdict.split()
    return refused(*map(int, numbers)) if word == "refused" else word


def shown(name):
    """A file's name as both programs print it."""
    text = ""
    for c in os.fsdecode(name):
        hidden = unicodedata.category(c) in ("Cc", "Cs", "Zl", "Zp") or unicodedata.bidirectional(c) in (
            "LRE", "RLE", "LRO", "RLO", "PDF", "LRI", "RLI", "FSI", "PDI") or c in "\u200e\u200f\u061c"
        text += "".join("\\x%02x" % byte for byte in os.fsencode(c)) if hidden else "\\\\" if c == "\\" else c
    return text


def line(name, said):
    return "%s: %s" % (shown(name), said)


def unread(name, why):
    """The line of what could not be read; the reason in words, or the system's for an error's number."""
    return line(name, "could not be read: %s" % (why if isinstance(why, str) else os.strerror(why)))


KINDS = ("clean", "repair", "refused", "could")


def kind(said):
    """Which of the kinds a verdict line tells."""
    return KINDS.index(re.search(r": (clean$|repair$|refused|could)", said)[1])


def summary(lines, passed=0):
    """The gate's last line for these verdicts."""
    counts = [list(map(kind, lines)).count(k) for k in range(4)]
    sheets = "1 sheet" if len(lines) == 1 else "%d sheets" % len(lines)
    return sheets + ": %d clean, %d to repair, %d refused, %d could not be read; %d passed over" % (*counts, passed)


def as_line(answer):
    """The verdict line that one of the gate's JSON objects stands for; its name is shown already."""
    place = " at byte {:,}".format(answer["position"]) if isinstance(answer.get("position"), int) else ""
    said = {"refused": "refused {code} {item}{place}: {reason}", "unreadable": "could not be read: {reason}"}.get(answer["verdict"], answer["verdict"])
    name = "/".join(answer[part] for part in ("file", "table", "id") if part in answer)
    return "%s: %s" % (name, said.format(place=place, **answer))


# ---------------------------------------------------------------------------------------------------------------- running


def start(command, *words, **more):
    return subprocess.Popen(command.split() + list(words), **{**dict.fromkeys(("stdin", "stdout", "stderr"), subprocess.PIPE), **more})


def lines_of(printed):
    """Lines as line feeds end them, and nothing else."""
    return printed.decode(errors="backslashreplace").removesuffix("\n").split("\n") if printed else []


def run(command, *words, given=b"", **more):
    """The exit status, and what is printed on standard output and on standard error, as lines."""
    with start(command, *words, **more) as program:
        try:
            printed = program.communicate(given, timeout=60)
        except subprocess.TimeoutExpired:
            program.kill()
            return "no end", [], []
        return program.returncode, *map(lines_of, printed)


def equal(what, got, wanted):
    """Is it as it should be? What is not is printed."""
    if got != wanted:
        print("%s:\n  got    %s\n  wanted %s" % (what, str(got)[:2000], str(wanted)[:2000]))
    return got == wanted


@contextlib.contextmanager
def folder_of(files):
    """A folder with these files in it, by name; its path as bytes."""
    with tempfile.TemporaryDirectory() as folder:
        folder = os.fsencode(folder)
        for name, content in files.items():
            path = os.path.join(folder, os.fsencode(name))
            os.makedirs(os.path.dirname(path), exist_ok=True)
            with open(path, "wb") as f:
                f.write(content)
        yield folder


class Programs:
    """Both programs."""

    def __init__(self, *commands):
        self.checker, self.gate = (" ".join(os.path.abspath(word) if os.path.exists(word) else word for word in command.split()) for command in commands)
        self.batch = self.checker + " --batch"

    def same(self, what, words, lines, **more):
        """Do both print these verdict lines for the same words, the gate a summary, also as JSON, with the right status and no message?"""
        ended = max(map(kind, lines))
        answers = run(self.gate + " --json", *words, **more)
        objects = [json.loads(text) for text in answers[1]]
        sheets = dict(zip(("clean", "repair", "refused", "unreadable"), (list(map(kind, lines)).count(k) for k in range(4))))
        return [
            equal(what + ", checker", run(self.batch, *words, **more), (ended, lines, [])),
            equal(what + ", gate", run(self.gate, *words, **more), (ended, lines + [summary(lines)], [])),
            equal(what + ", gate --json", (answers[0], list(map(as_line, objects[:-1])), answers[2]), (ended, lines, [])),
            equal(what + ", JSON summary", objects[-1:], [{"sheets": len(lines), **sheets, "passed_over": 0}]),
        ]


# ---------------------------------------------------------------------------------------------------------------- sheets


# The words of a command that name a mode, by the mode's number.
MODES = ([], ["--older"], ["--blob"], ["--older", "--blob"])
# Those that name a way, by the way's number.
WAYS = ([], ["--longest"])
# What the names of sheets and of blobs end in, as a folder has them.
ENDS = (".wkb", ".gpb")


def sheets_of(programs, what, paths, mode=0, way=0):
    """Both programs on sheets, whose verdicts and listings are those of the independent program in this mode and way."""
    answers = independent.answers(paths, mode, way)
    lines = [line(path, told(verdict)) for path, (verdict, _) in zip(paths, answers)]
    listed = [printed for path, (_, listing) in zip(paths, answers) for printed in [shown(path) + ":", *listing]]
    refusals_told = [said for said in lines if kind(said) == 2]
    words = MODES[mode] + WAYS[way] + paths
    outcomes = programs.same(what, words, lines)
    return lines, outcomes + [equal(what + ", listings", run(programs.checker, *words), (max(map(kind, lines)), listed, refusals_told))]


def in_modes(programs, what, paths, modes=(0, 1)):
    """The lines of the sheets in each of these modes, and what came out."""
    lines, outcomes = zip(*(sheets_of(programs, "%s, mode %d" % (what, mode), paths, mode) for mode in modes))
    return lines, sum(outcomes, [])


def files_of(folder, end):
    return sorted(glob.glob(os.path.join(folder, "*" + end)))


def wkb_of(folder):
    return files_of(folder, ".wkb")


def in_all_modes(programs, what, folder):
    """The lines of a folder's sheets and of its blobs in each mode, and what came out."""
    sheets, blobs = (in_modes(programs, what, files_of(folder, end), modes) for end, modes in zip(ENDS, ((0, 1), (2, 3))))
    return sheets[0] + blobs[0], sheets[1] + blobs[1]


def by_the_longest_boundary(programs, what, folder, every):
    """The sheets in mode 0 and the blobs in mode 2 with --longest: the verdicts are those without it, and some listings are others."""
    outcomes = []
    for mode, end in ((0, ENDS[0]), (2, ENDS[1])):
        paths = files_of(folder, end)
        lines, more = sheets_of(programs, "%s, mode %d, --longest" % (what, mode), paths, mode, 1)
        listings = (run(programs.checker, *MODES[mode], *words, *paths)[1] for words in WAYS)
        outcomes += more + [equal("verdicts with --longest", lines, every[mode]), equal("listings with --longest differ", len(set(map(tuple, listings))), 2)]
    return outcomes


# Points that are asked for: on the strip sheet's ground and on many a generated sheet's, behind every frame, and on few.
POINTS = ((0, 0), (3, 2), (-1, 1), (10_000_000, -2_147_483_648), (2_147_483_647, 5), (-1_000_000, 500_000))


def at_points(programs, what, folder):
    """The owners at points that the checker prints are those of the independent program, on sheets and blobs, in both ways."""
    outcomes, seen = [], set()
    for mode, way, end in ((0, 0, ENDS[0]), (1, 1, ENDS[0]), (2, 1, ENDS[1]), (3, 0, ENDS[1])):
        paths = files_of(folder, end)
        for point in POINTS:
            told_of = independent.owners_at(paths, point, mode, way)
            seen |= {said.split()[0] + said.split()[1] * (said.split()[0] == "refused") for said in told_of}
            lines = [line(path, told(said) if said.startswith("refused") else said) for path, said in zip(paths, told_of)]
            status = 2 if any(said.startswith("refused") for said in told_of) else 0
            words = MODES[mode] + WAYS[way] + ["--at", "%d,%d" % point]
            outcomes.append(equal("%s, mode %d, way %d, at %d,%d" % (what, mode, way, *point), run(programs.checker, *words, *paths), (status, lines, [])))
    return outcomes + [equal(what + ", owners and points off the frame", {"polygon", "refused55"} <= seen, True)]


def asked_points(programs):
    """How a point is written, and what is none: wherever the word stands, from standard input, for several files, with a file that can't be read."""
    sheet = os.path.join(EXAMPLES, "strip.wkb")
    given = contents(sheet)
    off = line(sheet, refused(55, 0))
    outcomes = []
    for words in (["--at", "3,2", sheet], [sheet, "--at", "3,2"], ["--at=3,2", "--", sheet], ["--at", "9,9", "--at", "3,2", "--batch", sheet], ["--longest", "--at", "003,2", sheet]):
        outcomes.append(equal("a point", run(programs.checker, *words), (0, [line(sheet, "polygon 1")], [])))
    for point in ("-1,0", "8,0", "0,4", "-2147483648,2147483647", "0,-0004"):
        outcomes.append(equal("a point off the frame", run(programs.checker, "--at", point, sheet), (2, [off], [])))
    outcomes.append(equal("a point of standard input", run(programs.checker, "--at", "7,3", given=given), (0, [line("-", "polygon 2")], [])))
    missing = sheet + ".missing"
    outcomes.append(equal("a point of several", run(programs.checker, "--at", "0,0", sheet, missing), (3, [line(sheet, "polygon 1"), unread(missing, 2)], [])))
    for text in ("", ",", "1", "1,", ",1", "1,2,3", "1;2", "1, 2", "+1,2", "1.0,2", "0x1,2", "2147483648,0", "0,-2147483649", "99999999999999999999,0", "a,b", "--1,2", "-,2"):
        why = "checker: there is no point %s: --at takes X,Y, two whole numbers of 32 bits" % text
        outcomes.append(equal("no point", run(programs.checker, "--at", text, sheet), (3, [], [why])))
    return outcomes + [equal("no point behind it", run(programs.checker, sheet, "--at"), (3, [], ["checker: the option --at takes a value: see checker --help"]))]


def contents(path):
    with open(path, "rb") as f:
        return f.read()


def generated(programs, folder):
    """The folder's sheets and blobs, named one by one and as a folder; every kind of verdict in each mode, sheets that are refused in one mode alone, every
    refusal of blobs, and the largest are among them."""
    every, outcomes = in_all_modes(programs, "generated sheets", folder)
    outcomes += by_the_longest_boundary(programs, "generated sheets", folder, every) + at_points(programs, "generated sheets", folder)
    for mode, (words, lines) in enumerate(zip(MODES, every)):
        end, other = ENDS if mode < 2 else ENDS[::-1]
        passed = files_of(folder, other)
        messages = ["gate: " + line(path, "passed over: its name doesn't end in %s or .gpkg" % end) for path in passed]
        outcomes += [
            equal("the folder", run(programs.gate, folder, *words), (2, lines + [summary(lines, len(passed))], messages)),
            equal("kinds", {kind(said) for said in lines}, {0, 1, 2}),
            equal("refused by 50, 51, 52", [code for code in (50, 51, 52) if any(": refused %d 0: " % code in said for said in lines)], [50, 51, 52] * (mode > 1)),
        ]
    for present, older in (every[:2], every[2:]):
        changes = {(kind(one), kind(other)) for one, other in zip(present, older)}
        outcomes.append(equal("refused in one mode alone", {(0, 2), (1, 2), (2, 0), (2, 1)} - changes, set()))
    for end in ENDS:
        paths = files_of(folder, end)
        largest = [path for path in paths if os.path.basename(path).startswith("largest-")]
        outcomes.append(equal("enough sheets", (len(paths) >= 500, len(largest) >= 16), (True, True)))
    return outcomes


def examples(programs):
    """The stored listings of the examples, from a file and from standard input."""
    outcomes, paths = [], wkb_of(EXAMPLES)
    for path, (verdict, _) in zip(paths, independent.answers(paths)):
        with open(path, "rb") as f, open(path[:-4] + ".txt", encoding="ascii") as g:
            sheet, stored = f.read(), g.read()
        said = told(verdict)
        ended = KINDS.index(said.split()[0])
        for name, words in ((path, [path]), ("-", []), ("-", ["-"])):
            wanted = ended, stored.splitlines(), [line(name, said)] * (ended == 2)
            outcomes.append(equal("listing of " + path, run(programs.checker, *words, given=sheet), wanted))
        outcomes += programs.same("example " + path, [path], [line(path, said)])
        outcomes += programs.same("example %s on standard input" % path, ["-"], [line("-", said)], given=sheet)
    return outcomes


def sentences(programs, cases):
    """Refusals in words, written down here, of sheets made by hand."""
    wanted = {
        "example 11 - no bytes": "refused 1 0 at byte 0: the bytes end too early for the next field of the sheet's own header",
        "a byte order of 2 with nothing behind it": "refused 2 1 at byte 9: a byte order in member 1, the triangle table is neither 0 nor 1",
        "a member of type 9": "refused 3 3 at byte 266: a type in member 3 isn't allowed at its place",
        "a table of no triangles": "refused 4 1 at byte 14: a count in member 1, the triangle table is outside the limits",
        "-0.5 as the x of a ring's first point, little-endian": "refused 5 2 at byte 185: a point in member 2 isn't given in whole millimetres within 10,000,000",
        "position of the longest sheet's last y": "refused 5 65 at byte 185,930: a point in member 65 isn't given in whole millimetres within 10,000,000",
        "position of the 65th polygon, big-endian": "refused 4 2 at byte 5,119: a count in member 2 is outside the limits",
        "a ring from (0, 0) to (1, 0) in member 2": "refused 6 2 at byte 233: a ring in member 2 doesn't end at its first point",
        "a byte after the sheet": "refused 7 0 at byte 820: there are bytes after the sheet",
        "a collection at depth 5 with no members": "refused 8 2 at byte 200: a collection in member 2 is nested too deep",
        "a triangle that is clockwise, the last": "refused 10 9: triangle 9 has no area above 0",
        "triangle 3 has a side of 2, triangle 4 one of 1": "refused 11 3: triangle 3 has a side of an earlier triangle",
        "a triangle far from another": "refused 12 0: the triangles don't make up the frame",
        "not-carried": "refused 20 2: no set of triangles carries polygon 2",
        "no-ground": "refused 21 2: polygon 2 has no ground: its lines run there and back and cancel out",
        "polygon 1 without ground, 2 not carried": "refused 21 1: polygon 1 has no ground: its lines run there and back and cancel out",
        "polygon 1 not carried, 2 without ground": "refused 20 1: no set of triangles carries polygon 1",
    }
    paths = [os.path.join(cases, name + ".wkb") for name in wanted]
    return programs.same("refusals in words", paths, [line(path, said) for path, said in zip(paths, wanted.values())])


def older_edition(programs, cases):
    """Verdicts on sheets of the older edition, made by hand: in the present mode and with --older, wherever that word stands."""
    carried, missing = "refused 20 1: no set of triangles carries polygon 1", "no set of triangles carries polygon 2"
    wanted = {
        "clean, both polygons clockwise": (carried, "clean"),
        "clean, polygon 2 clockwise": ("refused 20 2: " + missing, "clean"),
        "example 2 - the same clockwise": (carried, "repair"),
        "the strip sheet clockwise": (carried, "repair"),
        "polygon 1 clockwise, 2 not carried": (carried, "refused 20 2: " + missing),
        "a ring clockwise with a ring anticlockwise inside": (carried, "repair"),
        "two rings anticlockwise in one part": ("repair", carried),
        "two rings of one part, anticlockwise and anticlockwise": (carried, "refused 21 1: polygon 1 has no ground: its lines run there and back and cancel out"),
        "a piece of type 3 clockwise, with a polygon clockwise": ("refused 10 2: triangle 2 has no area above 0",) * 2,
        "a byte after the sheet": ("refused 7 0 at byte 820: there are bytes after the sheet",) * 2,
    }
    paths = [os.path.join(cases, name + ".wkb") for name in wanted]
    lines = [[line(path, said[mode]) for path, said in zip(paths, wanted.values())] for mode in (0, 1)]
    outcomes = programs.same("the older edition", paths, lines[0])
    for words in (["--older", *paths], [*paths, "--older"], ["--older", "--older", *paths], ["--older", "--", *paths]):
        outcomes += programs.same("the older edition with --older", words, lines[1])
    listing = ["sheet 8 2", "polygon 1 32", "polygon 2 32", "gap 2 16", "overlap 2 16", "verdict repair", "after 1 32", "after 2 32"]
    sheet = contents(os.path.join(cases, "the strip sheet clockwise.wkb"))
    return outcomes + [
        equal("its listing", run(programs.checker, "--older", given=sheet), (1, listing, [])),
        equal("its present listing", run(programs.checker, given=sheet), (2, ["refused 20 1"], [line("-", carried)])),
    ]


def longest_boundary(programs, cases):
    """The listing of a sheet made by hand whose gap goes to another polygon with --longest, wherever that word stands; its verdict is the same."""
    path = os.path.join(cases, "a gap that shares 6 with 1 and 2 with 2 goes to 1.wkb")
    head = ["sheet 18 2", "polygon 1 56", "polygon 2 8", "gap 2 8", "overlap 0 0", "verdict repair"]
    outcomes = [equal("by priority", run(programs.checker, path), (1, head + ["after 1 56", "after 2 16"], []))]
    for words in (["--longest", path], [path, "--longest"], ["--longest", "--longest", "--", path]):
        outcomes.append(equal("by the longest boundary", run(programs.checker, *words), (1, head + ["after 1 64", "after 2 8"], [])))
        outcomes += programs.same("its verdict", words, [line(path, "repair")])
    for words, owner in ((WAYS[0], 2), (WAYS[1], 1)):
        outcomes.append(equal("a point of the gap", run(programs.checker, *words, "--at", "3,3", path), (0, [line(path, "polygon %d" % owner)], [])))
    return outcomes


def blobs(programs, cases):
    """Verdicts on blobs, made by hand, in words: with --blob, alone and with --older, wherever these words stand; what is no blob; and folders of them."""
    carried, frame = "refused 20 1: no set of triangles carries polygon 1", "refused 52 0: the blob's envelope isn't the frame of its triangles"
    strange, heights = (refused(code, 0) for code in (50, 51))
    wanted = {
        "the strip sheet in a little-endian blob with an envelope": ("repair",) * 2,
        "the strip sheet in a big-endian blob without one": ("repair",) * 2,
        "the strip sheet clockwise in a blob": (carried, "repair"),
        "reference system -1, big-endian, with an envelope": ("clean",) * 2,
        "an envelope with -0 for 0, big-endian": ("repair",) * 2,
        "an envelope with the greatest y NaN, little-endian": (frame,) * 2,
        "a polygon not carried, the envelope wrong": (frame,) * 2,
        "rule C broken, the envelope wrong": ("refused 12 0: the triangles don't make up the frame",) * 2,
        "no bytes for a blob": ("refused 1 0 at byte 0: the bytes end too early for the next field of the sheet's own header",) * 2,
        "39 bytes of a big-endian blob with an envelope": ("refused 1 0 at byte 8: the bytes end too early for the next field of the sheet's own header",) * 2,
        "half a millimetre as y in a big-endian blob with an envelope":
            ("refused 5 2 at byte 695: a point in member 2 isn't given in whole millimetres within 10,000,000",) * 2,
        "a byte after the sheet in a little-endian blob without one": ("refused 7 0 at byte 828: there are bytes after the sheet",) * 2,
        "a blob in a blob": ("refused 2 0 at byte 40: a byte order in the sheet's own header is neither 0 nor 1",) * 2,
        "a sheet for a blob": ("refused 50 0: it isn't a GeoPackage blob of version 0 with an ordinary geometry",) * 2,
        "flags 00010011": (strange,) * 2,
        "flags 00000101": ("refused 51 0: the blob's envelope is of a kind that isn't read: none, or x and y alone",) * 2,
        "flags 00001111, nothing behind them": (heights,) * 2,
    }
    paths = [os.path.join(cases, name + ".gpb") for name in wanted]
    present, older = ([line(path, said[mode]) for path, said in zip(paths, wanted.values())] for mode in (0, 1))
    outcomes = []
    for words in (["--blob", *paths], [*paths, "--blob"], ["--blob", "--blob", "--", *paths]):
        outcomes += programs.same("blobs", words, present)
    for words in (["--blob", "--older", *paths], ["--older", *paths, "--blob"]):
        outcomes += programs.same("blobs of the older edition", words, older)
    blob = contents(os.path.join(cases, "the strip sheet in a little-endian blob with an envelope.gpb"))
    listing = contents(os.path.join(EXAMPLES, "strip.txt")).decode().splitlines()
    no_sheet = "refused 2 0 at byte 0: a byte order in the sheet's own header is neither 0 nor 1"
    outcomes += [
        equal("a blob's listing", run(programs.checker, "--blob", given=blob), (1, listing, [])),
        equal("a blob for a sheet", run(programs.checker, given=blob), (2, ["refused 2 0"], [line("-", no_sheet)])),
    ]
    with folder_of({"a.gpb": blob, "b/c.GPB": b"", "d.wkb": b"", "e/f.wkb": b""}) as folder:
        def path(name):
            return os.path.join(folder, os.fsencode(name))
        lines = [line(path("a.gpb"), "repair"), line(path("b/c.GPB"), EMPTY)]
        passed = ["gate: " + line(path(name), "passed over: its name doesn't end in .gpb or .gpkg") for name in ("d.wkb", "e/f.wkb")]
        nothing = [unread(path("e"), "there is no blob in it, no file whose name ends in .gpb or .gpkg")]
        outcomes += [
            equal("a folder of blobs", run(programs.gate, "--blob", folder), (2, lines + [summary(lines, 2)], passed)),
            equal("no blob in it", run(programs.gate, "--blob", path("e")), (3, nothing + [summary(nothing, 1)], passed[1:])),
        ]
    return outcomes


# ---------------------------------------------------------------------------------------------------------------- repair


def parsed(sheet):
    """The triangles and the polygons of a little-endian sheet; of each polygon the parts, their rings and points."""
    at = 0

    def field(form):
        nonlocal at
        at += struct.calcsize("<" + form)
        return struct.unpack("<" + form, sheet[at - struct.calcsize("<" + form):at])

    def rings(count):
        return [[field("2d") for _ in range(field("I")[0])] for _ in range(count)]

    def parts():
        _, kind_, count = field("BII")
        return [rings(count)] if kind_ in (3, 17) else [part for _ in range(count) for part in parts()]

    members = field("BII")[2]
    return parts(), [parts() for _ in range(members - 1)]


def double_area(ring):
    return sum(p[0] * q[1] - q[0] * p[1] for p, q in zip(ring, ring[1:]))


def is_round(outer, ring):
    """Does a ring run round another's first edge, by the half plane to its left of the edges that pass its middle?"""
    x, y = ((ring[0][k] + ring[1][k]) / 2 for k in (0, 1))
    passing = [(p, q) for p, q in zip(outer, outer[1:]) if (p[1] > y) != (q[1] > y)]
    return sum((q[1] > p[1]) - (q[1] < p[1]) for p, q in passing if ((q[0] - p[0]) * (y - p[1]) - (x - p[0]) * (q[1] - p[1])) * (q[1] - p[1]) > 0) > 0


def is_in_parts(sheet):
    """Is the first ring of each part the one that runs anticlockwise, and is each of its holes in it, and in no smaller one?"""
    sound = []
    for parts in parsed(sheet)[1]:
        outer = [part[0] for part in parts]
        for part in parts:
            sound.append([double_area(ring) > 0 for ring in part] == [True] + [False] * (len(part) - 1))
            sound += [min((ring for ring in outer if is_round(ring, hole)), key=double_area, default=None) == part[0] for hole in part[1:]]
    return all(sound)


def areas_after(listing):
    """What a listing says that polygons have after repair, but for those that have none."""
    return [said.split()[2] for said in listing if said.startswith("after ") and not said.endswith(" 0")]


def without_ground(listing):
    return [int(said.split()[1]) for said in listing if said.startswith("after ") and said.endswith(" 0")]


def without(numbers, count):
    """What both programs say of a repaired sheet of so many polygons, of which these have no ground left."""
    if not numbers:
        return "repaired"
    one = len(numbers) == 1
    named = ("polygon %s, which has" if one else "polygons %s, which have") % ", ".join(map(str, numbers))
    moved = any(number > numbers[0] and number not in numbers for number in range(1, count + 1))
    return "repaired without %s no ground left" % named + ("; those behind %s are renumbered" % ("it" if one else "them")) * moved


def repaired_line(verdict, listing):
    """What both programs say of a sheet with this verdict and listing that they are to repair, but for limits."""
    if verdict.startswith("refused"):
        return told(verdict)
    if not any(said.startswith("after ") for said in listing):
        return refused(30, 0)
    return "clean" if verdict == "clean" else without(without_ground(listing), sum(said.startswith("polygon ") for said in listing))


WRITTEN = ("clean", "repaired")


def repair_kind(said):
    """The status that a line with --repair asks for."""
    words = said.partition(": ")[2]
    return 0 if words in WRITTEN else 1 if words.startswith("repaired without") else 3 if words.startswith("could not") else 2


def repair_summary(lines, passed=0):
    counts = [list(map(repair_kind, lines)).count(k) for k in range(4)]
    sheets = "1 sheet" if len(lines) == 1 else "%d sheets" % len(lines)
    return sheets + ": %d written, %d written without a polygon, %d refused or over the limits, %d could not be read or written; %d passed over" % (*counts, passed)


def both_repair(programs, what, words, lines, out="out.wkb", before=None, **more):
    """Do both print these lines and end alike, and write the same file, or none, each into a folder of its own with nothing else left in it? What was written."""
    outcomes, written = [], []
    ended = max(map(repair_kind, lines))
    for name, command, last in (("checker", programs.checker, []), ("gate", programs.gate, [repair_summary(lines)])):
        with folder_of(before or {}) as folder:
            got = run(command, "--repair", out, *words, cwd=folder, **more)
            found = {os.fsdecode(file): contents(os.path.join(folder, file)) for file in os.listdir(folder)}
            outcomes.append(equal("%s, %s" % (what, name), got, (ended, lines + last, [])))
            written.append(found.pop(out, None))
            outcomes.append(equal("%s, %s, what is left" % (what, name), found, {k: v for k, v in (before or {}).items() if k != out}))
    return outcomes + [equal(what + ", both files", written[0] == written[1], True)], written[0]


def repaired_by_hand(programs, cases):
    """Sheets made by hand, repaired: overlaps, gaps, holes, islands, polygons without ground, limits; the rings are written down here."""
    outcomes = []

    def box(x1, x2):
        return [(x, 0) for x in range(x1, x2 + 1, 2)] + [(x, 4) for x in range(x2, x1 - 1, -2)] + [(x1, 0)]

    def along(size, low=0):
        step = range(0, size, 2)
        ring = [(k, 0) for k in step] + [(size, k) for k in step] + [(size - k, size) for k in step] + [(0, size - k) for k in step] + [(0, 0)]
        return [(low + x, low + y) for x, y in ring]

    def hole(low, size):
        ring = along(size - 2 * low, low)
        return [ring[1], ring[0]] + ring[-2:0:-1]
    shore = [(4, 2), (2, 2), (2, 4), (2, 6), (2, 8), (4, 8), (6, 8), (8, 8), (8, 6), (8, 4), (8, 2), (6, 2), (4, 2), (6, 4), (4, 4), (4, 2)]
    sheets = {
        os.path.join(EXAMPLES, "strip"): ("repaired", [[[box(0, 4)]], [[box(4, 8)]]]),
        os.path.join(EXAMPLES, "clean"): ("clean", [[[box(0, 4)]], [[box(4, 8)]]]),
        "a gap between 1 and 2 goes to 2": ("repaired", [[[box(0, 2)]], [[box(2, 8)]]]),
        "a gap between 1 and 3 goes to 3": ("repaired without polygon 2, which has no ground left; those behind it are renumbered", [[[box(0, 2)]], [[box(2, 8)]]]),
        "no rings of a polygon that owns nothing": ("repaired without polygon 2, which has no ground left", [[[box(0, 8)]]]),
        "rings of two areas apart": ("clean", [[[box(0, 2)], [box(4, 6)]], [[box(2, 4)], [box(6, 8)]]]),
        "a hole that touches the outer ring": ("clean", [[[along(6), [(2, 0), (2, 2), (4, 2), (2, 0)]]], [[[(2, 0), (4, 2), (2, 2), (2, 0)]]]]),
        "an island in a lake, with a pond on it": ("clean", [[[along(14), hole(2, 14)], [along(6, 4), hole(6, 14)]], None]),
        "an island that touches the shore in one corner": ("clean", [[[along(10), shore]], None]),
        "the ring of a bow-tie": ("clean", [[[[(2, 2), (0, 0), (4, 0), (2, 2), (4, 4), (0, 4), (2, 2)]]], None]),
        "65 areas apart": ("over the limits: polygon 1 has 65 parts after repair, and a polygon has 64 at most", None),
        "64 holes": ("over the limits: polygon 1 has a part of 65 rings after repair, and a part has 64 at most", None),
        "not-carried": ("refused 20 2: no set of triangles carries polygon 2", None),
        "no-polygons": ("refused 30 0: repair can't be done, since no triangle has an owner", None),
    }
    for name, (said, polygons) in sheets.items():
        path = os.path.join(cases, name + ".wkb")
        given = contents(path)
        more, written = both_repair(programs, name, [path], [line(path, said)])
        got = written and parsed(written)[1]
        wanted = polygons and [mine if mine else theirs for mine, theirs in zip(polygons, got or polygons)]
        outcomes += more + [equal(name + ", its polygons", got, wanted), equal(name + ", the input", contents(path), given)]
        if written:
            outcomes += [equal(name + ", its table", parsed(written)[0], parsed(given)[0]), equal(name + ", its parts", is_in_parts(written), True)]
    many = os.path.join(cases, "an overlap of 63, and a gap between 1 and 64.wkb")
    said = "repaired without polygons %s, which have no ground left; those behind them are renumbered" % ", ".join(map(str, range(2, 64)))
    more, written = both_repair(programs, "62 without ground", [many], [line(many, said)])
    return outcomes + more + [equal("two are left", len(parsed(written)[1]), 2)]


def repair_targets(programs):
    """Where a repaired sheet can be written, and where not: never over the input, under whatever name; a file that is there is replaced."""
    sheet = contents(os.path.join(EXAMPLES, "strip.wkb"))
    repaired = parsed(both_repair(programs, "a sheet", ["-"], [line("-", "repaired")], given=sheet)[1])
    path = os.path.join(EXAMPLES, "strip.wkb")
    outcomes, written = both_repair(programs, "a file that is there", [path], [line(path, "repaired")], before={"out.wkb": b"old", "other": b"x"})
    outcomes.append(equal("it is replaced", parsed(written), repaired))
    itself = "could not be written to %s: it is the input itself"
    more, written = both_repair(programs, "the input itself", ["out.wkb"], [line("out.wkb", itself % "out.wkb")], before={"out.wkb": sheet})
    outcomes += more + [equal("it stays", written, sheet)]
    for out, why in (("no/out.wkb", os.strerror(2)), (".", "it is a folder"), ("/dev/null", "it is a device"), ("out.gpkg", "a name that ends in .gpkg is a GeoPackage's"),
                     ("x" * 300, os.strerror(36))):
        outcomes += both_repair(programs, "no place", [path], [line(path, "could not be written to %s: %s" % (out, why))], out=out)[0]
    outcomes += both_repair(programs, "no sheet", ["gone"], [unread("gone", 2)])[0] + both_repair(programs, "no bytes", ["-"], [line("-", EMPTY)])[0]
    with folder_of({"a.wkb": sheet}) as folder:
        os.link(os.path.join(folder, b"a.wkb"), os.path.join(folder, b"hard.wkb"))
        os.symlink(b"a.wkb", os.path.join(folder, b"soft.wkb"))
        for command in (programs.checker, programs.gate):
            for out in ("a.wkb", "./a.wkb", "hard.wkb", "soft.wkb"):
                outcomes.append(equal("over the input", run(command, "--repair", out, "a.wkb", cwd=folder)[:2][1][:1], [line("a.wkb", itself % out)]))
                with open(os.path.join(folder, b"a.wkb"), "rb") as given:
                    outcomes.append(equal("over standard input", run(command, "--repair", out, "-", cwd=folder, stdin=given)[1][:1], [line("-", itself % out)]))
            outcomes.append(equal("what is there", (sorted(os.listdir(folder)), contents(os.path.join(folder, b"a.wkb"))), ([b"a.wkb", b"hard.wkb", b"soft.wkb"], sheet)))
            limits = {"preexec_fn": limited(resource.RLIMIT_FSIZE, 100), "restore_signals": False, "cwd": folder}
            full = run(command, "--repair", "new.wkb", "a.wkb", **limits)
            outcomes.append(equal("no room", (full[0], full[1][:1], len(os.listdir(folder))), (3, [line("a.wkb", "could not be written to new.wkb: " + os.strerror(27))], 3)))
    return outcomes


def repair_words(programs):
    """Words that can't be followed with --repair; nothing is written."""
    outcomes, sheet = [], os.path.join(EXAMPLES, "strip.wkb")
    with folder_of({}) as folder:
        for name, command, files in (("checker", programs.checker, "one file"), ("gate", programs.gate, "one file or one folder")):
            several = "%s: with --repair %s can be named, and not several: see %s --help" % (name, files, name)
            outcomes.append(equal("several", run(command, "--repair", "out", sheet, sheet, cwd=folder), (3, [], [several])))
            dash = "%s: the option --repair takes the name of a file%s, which - is not: see %s --help" % (name, " or a folder" * (name == "gate"), name)
            outcomes.append(equal("a dash", run(command, "--repair", "-", sheet, cwd=folder), (3, [], [dash])))
            value = "%s: the option --repair takes a value: see %s --help" % (name, name)
            for words in ([sheet, "--repair"], ["--repair=", sheet], ["--repair", "", sheet], ["--repair=", "--help"]):
                outcomes.append(equal("no value", run(command, *words, cwd=folder), (3, [], [value])))
        at = "checker: --at and --repair can't be asked for at once: see checker --help"
        outcomes.append(equal("a point", run(programs.checker, "--at", "1,1", "--repair", "out", sheet, cwd=folder), (3, [], [at])))
        return outcomes + [equal("nothing is written", os.listdir(folder), [])]


def repaired_folder(programs, folder, mode, way, every):
    """The gate repairs a folder's sheets into another folder; the checker writes the same of some of them. What is written is clean by the independent program, with the
    areas that it lists after repair; and the folder stays as it was."""
    paths = files_of(folder, ENDS[mode // 2])
    given = {path: contents(path) for path in paths}
    lines = [line(path, repaired_line(*answer)) for path, answer in zip(paths, independent.answers(paths, mode, way))]
    areas = {path: areas_after(listing) for path, (_, listing) in zip(paths, independent.answers(paths, mode, way))}
    words = MODES[mode] + WAYS[way]
    what = "repaired, mode %d, way %d" % (mode, way)
    with tempfile.TemporaryDirectory() as out:
        ended, printed, _ = run(programs.gate, "--repair", os.path.join(out, "made"), *words, folder)
        over = [path for path, said in zip(paths, printed) if ": over the limits: " in said]
        wanted = [said if path not in over else got for path, said, got in zip(paths, lines, printed)]
        passed = len(files_of(folder, ENDS[1 - mode // 2]))
        outcomes = [equal(what, (ended, printed), (max(map(repair_kind, wanted), default=0), wanted + [repair_summary(wanted, passed)]))]
        made = {path: os.path.join(out, "made", os.path.basename(path)) for path, said in zip(paths, wanted) if repair_kind(said) < 2}
        there = os.listdir(os.path.join(out, "made")) if os.path.isdir(os.path.join(out, "made")) else []
        outcomes.append(equal(what + ", files", sorted(there), sorted(map(os.path.basename, made.values()))))
        if not all(outcomes):  # there is nothing to read
            return outcomes
        present = 2 * (mode // 2)
        answers = dict(zip(made, independent.answers(list(made.values()), present)))
        outcomes.append(equal(what + ", clean", {verdict for verdict, _ in answers.values()}, {"clean"}))
        told_of = {path: [said.split()[2] for said in listing if said.startswith("polygon ")] for path, (_, listing) in answers.items()}
        outcomes.append(equal(what + ", areas", told_of, {path: areas[path] for path in made}))
        bodies = [contents(new)[40 * (mode // 2):] for new in made.values()]
        outcomes.append(equal(what + ", parts", all(map(is_in_parts, bodies)), True))
        for path in paths[::every]:
            new = os.path.join(out, "one")
            got = run(programs.checker, "--repair", new, *words, path)
            said = wanted[paths.index(path)]
            same = (contents(new) if os.path.exists(new) else None) == (contents(made[path]) if path in made else None)
            outcomes.append(equal(what + ", checker", (got, same), ((repair_kind(said), [said], []), True)))
            with contextlib.suppress(FileNotFoundError):
                os.remove(new)
    return outcomes + [equal(what + ", the inputs", {path: contents(path) for path in paths} == given, True), equal(what + ", some", len(made) > 10, True)]


def repair_folders(programs):
    """Folders below a folder are made again; a folder can't be repaired into itself, nor into a file."""
    sheet = contents(os.path.join(EXAMPLES, "strip.wkb"))
    outcomes = []
    with folder_of({"in/a.wkb": sheet, "in/b/c.WKB": sheet, "in/b/no.wkb": b"", "in/d/note": b"x", "file": b""}) as folder:
        for out, why in (("in", "the files of a folder are repaired into a folder outside of it: see gate --help"),
                         ("in/b/new/x", "the files of a folder are repaired into a folder outside of it: see gate --help"),
                         ("file", "the files of a folder are repaired into a folder, and file is none")):
            outcomes.append(equal("no folder", run(programs.gate, "--repair", out, "in", cwd=folder), (3, [], ["gate: " + why])))
        lines = [line("in/a.wkb", "repaired"), line("in/b/c.WKB", "repaired"), line("in/b/no.wkb", EMPTY)]
        passed = ["gate: in/d/note: passed over: its name doesn't end in .wkb or .gpkg"]
        outcomes.append(equal("a folder", run(programs.gate, "--repair", "out", "in", cwd=folder), (2, lines + [repair_summary(lines, 1)], passed)))
        made = sorted(os.path.relpath(os.path.join(above, name), folder) for above, _, names in os.walk(os.path.join(folder, b"out")) for name in names)
        outcomes.append(equal("what is made", made, [b"out/a.wkb", b"out/b/c.WKB"]))
        os.remove(os.path.join(folder, b"out/a.wkb"))
        os.link(os.path.join(folder, b"in/b/c.WKB"), os.path.join(folder, b"out/a.wkb"))
        lines[0] = line("in/a.wkb", "could not be written to out/a.wkb: it is the input itself")
        outcomes.append(equal("another input", run(programs.gate, "--repair", "out", "in", cwd=folder), (3, lines + [repair_summary(lines, 1)], passed)))
        ended, objects, _ = run(programs.gate, "--json", "--repair", "new", "in/a.wkb", cwd=folder)
        wanted = [{"file": "in/a.wkb", "verdict": "repaired", "without": [], "renumbered": False},
                  {"sheets": 1, "written": 1, "without": 0, "not_written": 0, "unreadable": 0, "passed_over": 0}]
        return outcomes + [equal("JSON", (ended, list(map(json.loads, objects))), (0, wanted))]


# ---------------------------------------------------------------------------------------------------------------- long files


def long_blobs(programs, sheet, farthest):
    """The same in blobs, with the longest header."""
    header = b"GP\0\3" + struct.pack("<i4d", 4326, 0, 64, 0, 32)
    files = {
        "sheet": (header + sheet, "clean"),
        "sheet and more": (header + sheet + bytes(300_000), refused(7, 0, len(sheet) + 40)),
        "fault": (header + farthest + bytes(300_000), refused(4, 65, len(farthest) + 36)),
        "fault cut": (header + farthest[:-1], refused(1, 65, len(farthest) + 36)),
    }
    with folder_of({name: content for name, (content, _) in files.items()}) as folder:
        paths = [os.path.join(folder, name.encode()) for name in files]
        answers = independent.answers(paths, 2)
        outcomes = [equal(name, told(verdict), said) for (name, (_, said)), (verdict, _) in zip(files.items(), answers)]
        return outcomes + programs.same("long blobs", ["--blob", *paths], [line(path, said) for path, (_, said) in zip(paths, files.values())])


def long_files(programs, cases):
    """The longest sheet, and the input that is looked at farthest before it is refused, with and without bytes behind them; each is answered as the
    independent program answers all of its bytes."""
    sheet, farthest = (contents(os.path.join(cases, name)) for name in ("the longest sheet.wkb", "the farthest fault.wkb"))
    files = {}
    for size in (0, 1, READ_CAP - len(sheet), READ_CAP - len(sheet) + 1, 300_000):
        files["sheet and %06d more" % size] = (sheet + bytes(size), "clean" if size == 0 else refused(7, 0, len(sheet)))
        files["fault and %06d more" % size] = (farthest + b"\1" * size, refused(4, 65, len(farthest) - 4))
    files["fault cut"] = (farthest[:-1], refused(1, 65, len(farthest) - 4))
    files["sheet cut"] = (sheet[:-1], refused(1, 65, len(sheet) - 16))
    files["noise"] = (b"\0" * 1_000_000, refused(3, 0, 1))
    outcomes = long_blobs(programs, sheet, farthest)
    with folder_of({name: content for name, (content, _) in files.items()}) as folder:
        paths = [os.path.join(folder, name.encode()) for name in files]
        lines = [line(path, said) for path, (_, said) in zip(paths, files.values())]
        answers = independent.answers(paths)
        outcomes += [equal(name, told(verdict), said) for (name, (_, said)), (verdict, _) in zip(files.items(), answers)]
        outcomes += programs.same("long files", paths, lines)
        for name in ("sheet and 300000 more", "fault and 300000 more"):
            content, said = files[name]
            outcomes += programs.same(name + ", on standard input", ["-"], [line("-", said)], given=content[:READ_CAP + 1000])
        os.truncate(paths[1], 1 << 40)  # a file of a terabyte, most of it never written
        return outcomes + programs.same("a terabyte", paths[1:2], [line(paths[1], files["fault and 000000 more"][1])])


# ---------------------------------------------------------------------------------------------------------------- names


def names():
    """Names with every byte that a name can have, with characters at the edges of what is hidden, with ill-formed UTF-8, and by chance."""
    dice = random.Random(14)
    edges = [0x7f, 0x80, 0x85, 0x9f, 0xa0, 0x61b, 0x61c, 0x61d, 0x7ff, 0x800, *range(0x200a, 0x2010), *range(0x2027, 0x2030), *range(0x2065, 0x206b),
             0xd7ff, 0xe000, 0xfeff, 0xffff, 0x10000, 0x1f600, 0x10ffff]
    bad = [b"\xc0\x80", b"\xc1\xbf", b"\xe0\x9f\xbf", b"\xed\xa0\x80", b"\xed\xbf\xbf", b"\xf0\x8f\xbf\xbf", b"\xf4\x90\x80\x80", b"\xf5\x80\x80\x80",
           b"\xe2\x82", b"\xf0\x9f\x98", b"\xe2\x82\xe2\x82\xac", b"\xf0\x9f\xe2\x82\xac", b"\xe2\x28\xa1", b"\xc3"]
    chance = [bytes(dice.choice(b"\\ab\x1b\n\x80\xbf\xc2\xe2\x80\xa8\xae\xed\xf0\x9f\x98\x80\"'") for _ in range(dice.randrange(1, 40))) for _ in range(200)]
    every = [bytes([byte]) for byte in range(1, 256) if byte != ord("/")]
    return {b"%03d" % k + name + b".wkb" for k, name in enumerate(every + [chr(c).encode() for c in edges] + bad + chance)} | {b"".join(every)[:255]}


def any_names(programs):
    """Files of all these names, one by one and as a folder; no control byte but the line feed is printed."""
    outcomes = []
    with folder_of(dict.fromkeys(names(), b"")) as folder:
        paths = [os.path.join(folder, name) for name in sorted(names())]
        outcomes += programs.same("names", paths, [line(path, EMPTY) for path in paths])
        taken, passed = ([path for path in paths if path.endswith(b".wkb") == is_sheet] for is_sheet in (True, False))
        lines = [line(path, EMPTY) for path in taken]
        messages = ["gate: " + line(path, "passed over: its name doesn't end in .wkb or .gpkg") for path in passed]
        outcomes.append(equal("names in a folder", run(programs.gate, folder), (2, lines + [summary(lines, len(passed))], messages)))
        for command in (programs.checker, programs.batch, programs.gate, programs.gate + " --json"):
            with start(command, *paths) as program:
                printed = b"".join(program.communicate())
            outcomes.append(equal("bytes of " + command, sorted({byte for byte in printed if byte < 32 or byte == 127}), [10]))
        gone = b"no\n\x1b[31m\xff\\such"
    return outcomes + programs.same("a name that is not there", [gone], [unread(gone, 2)])


# ---------------------------------------------------------------------------------------------------------------- files that are none


def irregular(programs):
    """Pipes, sockets, devices, folders, links, and paths that lead nowhere: each named with the reason, and none waited for."""
    with folder_of({"strip.wkb": contents(os.path.join(EXAMPLES, "strip.wkb")), "folder/x.wkb": b""}) as folder, socket.socket(socket.AF_UNIX) as listening:
        def path(name):
            return os.path.join(folder, name)
        os.mkfifo(path(b"pipe"))
        listening.bind(path(b"socket"))
        for name, target in ((b"link", b"strip.wkb"), (b"nowhere", b"gone"), (b"loop", b"loop"), (b"link to pipe", b"pipe")):
            os.symlink(target, path(name))
        wanted = [
            (path(b"pipe"), "it is a pipe"), (path(b"link to pipe"), "it is a pipe"), (path(b"socket"), "it is a socket"), (b"/dev/null", "it is a device"),
            (b"/dev/zero", "it is a device"), (path(b"nowhere"), 2), (path(b"loop"), 40), (path(b"strip.wkb/x"), 20), (path(b"x" * 300), 36), (b"", 2)]
        lines = [unread(name, why) for name, why in wanted] + [line(path(b"link"), "repair")]
        outcomes = programs.same("files that are none", [name for name, _ in wanted] + [path(b"link")], lines)
        for name in (folder, path(b"folder")):
            lines = [unread(name, "it is a folder")]
            outcomes.append(equal("a folder for the checker", run(programs.batch, name), (3, lines, [])))
            outcomes.append(equal("a folder for the checker's listing", run(programs.checker, name), (3, [], lines)))
    return outcomes


def too_deep(programs):
    """A folder whose path is longer than the system takes could not be read; the sheets above it are checked."""
    with folder_of({"a.wkb": b""}) as folder:
        step = b"s" * 250
        here = os.open(folder, os.O_RDONLY)
        for _ in range(17):
            os.mkdir(step, dir_fd=here)
            below = os.open(step, os.O_RDONLY, dir_fd=here)
            os.close(here)
            here = below
        os.close(here)
        first_too_long = next(deep for deep in (os.path.join(folder, *[step] * n) for n in range(18)) if len(deep) >= 4096)
        lines = [line(os.path.join(folder, b"a.wkb"), EMPTY), unread(first_too_long, 36)]
        return [equal("too deep", run(programs.gate, folder), (3, lines + [summary(lines)], []))]


def folders(programs):
    """What the gate takes from a folder and those below it, in which order, and what it passes over; --flat; folders with nothing to look at."""
    files = ["b.wkb", "a.wkb", "a/b.wkb", "a-b.WKB", "a/c/d.Wkb", "notes.txt", "a/wkb", "a/b.wkb.bak", "x.wkb/y.wkb", "no/sheet"]
    with folder_of(dict.fromkeys(files, b"")) as folder:
        def path(name):
            return os.path.join(folder, os.fsencode(name))
        for name, target in (("a/up", ".."), ("z.wkb", "a"), ("link.wkb", "b.wkb"), ("gone.wkb", "gone"), ("gone", "nowhere")):
            os.symlink(target, path(name))
        os.mkfifo(path("pipe"))
        said = {"a-b.WKB": EMPTY, "a.wkb": EMPTY, "a/b.wkb": EMPTY, "a/c/d.Wkb": EMPTY, "b.wkb": EMPTY, "gone.wkb": 2, "link.wkb": EMPTY,
                "pipe": "it is a pipe", "x.wkb/y.wkb": EMPTY}
        flat = {**{name: what for name, what in said.items() if "/" not in name}, "x.wkb": "it is a folder"}
        name, to_folder, left_out = "its name doesn't end in .wkb or .gpkg", "it is a link to a folder", "it is a folder, and --flat leaves those out"
        passed = {"a/b.wkb.bak": name, "a/up": to_folder, "a/wkb": name, "gone": name, "no/sheet": name, "notes.txt": name, "z.wkb": to_folder}
        flat_passed = {"a": left_out, "gone": name, "no": left_out, "notes.txt": name, "z.wkb": to_folder}
        outcomes = []
        for words, taken, over in ([], said, passed), (["--flat"], flat, flat_passed):
            lines = [line(path(name), what) if what == EMPTY else unread(path(name), what) for name, what in taken.items()]
            messages = ["gate: " + line(path(name), "passed over: " + why) for name, why in over.items()]
            got = run(programs.gate, *words, folder)
            outcomes.append(equal("folders %s" % words, got, (3, lines + [summary(lines, len(over))], messages)))
            ended, objects, told = run(programs.gate, "--json", *words, folder)
            objects = [json.loads(text) for text in objects]
            outcomes.append(equal("folders --json", (ended, list(map(as_line, objects[:-1])), told, objects[-1]["passed_over"]), (3, lines, messages, len(over))))
        outcomes += too_deep(programs)
        os.mkdir(path("empty"))
        messages = ["gate: " + line(path("no/sheet"), "passed over: " + name)]
        for here, told in (("empty", []), ("no", messages)):
            lines = [line(path("b.wkb"), EMPTY), unread(path(here), "there is no sheet in it, no file whose name ends in .wkb or .gpkg")]
            outcomes.append(equal("nothing in it", run(programs.gate, path("b.wkb"), path(here)), (3, lines + [summary(lines, len(told))], told)))
    return outcomes


# ---------------------------------------------------------------------------------------------------------------- options


def version(path, pattern):
    """The version that a file of the repository has."""
    with open(os.path.join(ROOT, path), encoding="ascii") as f:
        return re.search(pattern, f.read(), re.M)[1]


def options(programs):
    """Help, the version, names that begin with a dash, and words that can't be followed."""
    header, crate = version("include/sheets.h", r'^#define SHEETS_VERSION "(.*)"$'), version("hosts/rust/Cargo.toml", r'^version = "(.*)"$')
    outcomes = [equal("version", header, crate)]
    for name, program in (("checker", programs.checker), ("gate", programs.gate)):
        ended, text, _ = run(program, "--help")
        outcomes += [
            equal("help", (ended, text[0].split()[:2]), (0, ["usage:", name])),
            equal("-h", run(program, "-h"), (0, text, [])),
            equal("--version", run(program, "--version"), (0, ["%s %s" % (name, header)], [])),
            equal("stdin twice", run(program, "-", "-"), (3, [], [name + ": standard input can be named only once"])),
        ]
        for word in (b"--nonsense", b"-x", b"---", b"-\x1b"):
            hint = "%s: there is no option %s: see %s --help; a file of that name is written ./%s or behind --" % (name, shown(word), name, shown(word))
            outcomes.append(equal("no option", run(program, word, "--help"), (3, [], [hint])))
        valued = (3, [], ["%s: the option --older takes no value: see %s --help" % (name, name)])
        outcomes.append(equal("an option with a value", run(program, "--older=1", "--help"), valued))
    outcomes.append(equal("no word", run(programs.gate), (3, [], ["gate: no file and no folder is named: see gate --help"])))
    with folder_of(dict.fromkeys(["-x", "--", "--help", "-", "y", "[y,z]", "++"], b"")) as folder:
        words = ["y", "./-x", "./-", "[y,z]", "++", "--", "-x", "--", "--help", "-"]
        lines = [line(word, EMPTY) for word in words if word != "--"]
        lines.insert(6, line("--", EMPTY))
        outcomes += programs.same("names with a dash", words, lines, cwd=folder)
    return outcomes


# ---------------------------------------------------------------------------------------------------------------- where things end


def limited(what, most):
    return lambda: resource.setrlimit(what, (most, most))


def unwritable(programs, sheets):
    """A full disk, a closed pipe, and a disk that fills up midway: a message, status 3, and what could be written is kept."""
    outcomes = []
    for name, command in (("checker", programs.batch), ("gate", programs.gate), ("gate", programs.gate + " --json"), ("checker", programs.checker)):
        message = name + ": standard output could not be written: "
        for words in (sheets, ["--help"], ["--version"]):
            with open("/dev/full", "wb") as full:
                outcomes.append(equal("full disk", run(command, *words, stdout=full), (3, [], [message + os.strerror(28)])))
            reading, writing = os.pipe()
            os.close(reading)
            outcomes.append(equal("closed pipe", run(command, *words, stdout=writing), (3, [], [message + os.strerror(32)])))
            os.close(writing)
        with tempfile.NamedTemporaryFile() as kept:
            whole = run(command, *sheets)[1]
            room = len("\n".join(whole[:2])) + 5
            got = run(command, *sheets, stdout=kept, restore_signals=False, preexec_fn=limited(resource.RLIMIT_FSIZE, room))
            outcomes.append(equal("disk that fills up", got, (3, [], [message + os.strerror(27)])))
            outcomes.append(equal("what is kept", os.pread(kept.fileno(), room + 1, 0).decode(), ("\n".join(whole) + "\n")[:room]))
    return outcomes


def out_of_memory(name, command, sheets):
    """With little memory, and a little more each time: all lines, or the first ones with a message and status 3. The C library says itself where it is
    at an end."""
    whole = run(command, *sheets)
    first = next(most for most in range(1 << 20, 1 << 28, 1 << 14) if run(command, "--version", preexec_fn=limited(resource.RLIMIT_AS, most))[0] == 0)
    wrong, messages = [], set()
    for most in range(first, first + (1 << 23), 1 << 15):
        ended, lines, told = got = run(command, *sheets, preexec_fn=limited(resource.RLIMIT_AS, most))
        said = told != [] and all(re.match(name + ": |Fatal glibc error: ", message) for message in told)
        if got != whole and (ended, lines, said) != (3, whole[1][:len(lines)], True):
            wrong.append((most, got))
        messages.update(told)
    return [equal("little memory", wrong, []), equal("memory ran out", name + ": out of memory" in messages, True)]


def steady(programs):
    """A thousand files of the longest that is read take no more memory than a few."""
    files = {"%04d.wkb" % k: b"" for k in range(1000)}
    with folder_of(files) as folder:
        for name in files:
            os.truncate(os.path.join(folder, name.encode()), READ_CAP)
        lines = [line(os.path.join(folder, name.encode()), refused(3, 0, 1)) for name in files]
        return [equal("memory", run(programs.gate, folder, preexec_fn=limited(resource.RLIMIT_AS, 100 << 20)), (2, lines + [summary(lines)], []))]


def little_stack(programs, sheets):
    """The stack that the library needs is there whatever the limit of the first thread."""
    lines = run(programs.batch, *sheets)[1]
    return programs.same("little stack", sheets, lines, preexec_fn=limited(resource.RLIMIT_STACK, 1 << 17))


def waited(program, count):
    """So many lines of its output as they come; fewer where they don't within a while."""
    text, end = b"", time.monotonic() + 20
    while text.count(b"\n") < count and select.select([program.stdout], [], [], max(0, end - time.monotonic()))[0]:
        part = os.read(program.stdout.fileno(), 1 << 16)
        if not part:
            break
        text += part
    return lines_of(text)


def as_they_come(programs, sheets, lines):
    """Lines come while a later sheet is waited for, and not while an earlier one is; what was printed is kept when Ctrl-C ends the program."""
    outcomes = []
    for command in (programs.batch, programs.gate):
        with start(command, *sheets, "-", preexec_fn=lambda: signal.signal(signal.SIGINT, signal.SIG_DFL)) as program:
            outcomes.append(equal("lines as they come", waited(program, len(sheets)), lines))
            program.send_signal(signal.SIGINT)
            ended = program.wait(timeout=60)  # standard input stays open until then
            outcomes.append(equal("Ctrl-C", (program.stdout.read(), ended), (b"", -signal.SIGINT)))
        with start(command, "-", *sheets) as program:
            outcomes.append(equal("order", select.select([program.stdout], [], [], 0.5)[0], []))
            program.stdin.close()
            outcomes.append(equal("order", waited(program, 1 + len(sheets))[:1 + len(sheets)], [line("-", EMPTY), *lines]))
    return outcomes


def progress_lines(gate, words, first_and_last):
    """A progress line of the gate on a terminal, where the verdicts go elsewhere; standard input, the first sheet, is waited for."""
    ours, theirs = pty.openpty()
    with start(gate, *words, stderr=theirs) as program:
        os.close(theirs)
        time.sleep(3)
        program.stdin.close()
        program.stdout.read()
        said = b""
        while select.select([ours], [], [], 5 if said == b"" else 0.1)[0]:
            with contextlib.suppress(OSError):  # nobody has the terminal open any longer
                said += os.read(ours, 1 << 16)
                continue
            break
    os.close(ours)
    drawn = [text.strip() for text in re.split(rb"[\r\n]|\x1b\[\d*[A-Z]", said) if text.strip()]
    return [equal("progress", (drawn[:1], drawn[-1:]), first_and_last)]


def main(checker, gate, folder):
    programs = Programs(checker, gate)
    stored = wkb_of(EXAMPLES)
    (lines, _), outcomes = in_modes(programs, "examples", stored)
    outcomes += generated(programs, folder) + examples(programs) + repair_targets(programs) + repair_words(programs) + repair_folders(programs)
    native = len(checker.split()) == 1  # an emulator takes ten times as long
    for mode, way in ((0, 0), (1, 1), (2, 1), (3, 0)) if native else ((1, 1), (2, 0)):
        outcomes += repaired_folder(programs, folder, mode, way, 25)
    with tempfile.TemporaryDirectory() as cases:
        independent.cases(cases)
        outcomes += sentences(programs, cases) + older_edition(programs, cases) + longest_boundary(programs, cases) + asked_points(programs) + blobs(programs, cases) + long_files(programs, cases)
        outcomes += repaired_by_hand(programs, cases)
    outcomes += any_names(programs) + irregular(programs) + folders(programs) + options(programs)
    outcomes += unwritable(programs, stored) + as_they_come(programs, stored, lines) + progress_lines(programs.gate, ["-", stored[0]], ([b"1 of 2 sheets checked"], [b"2 of 2 sheets checked"]))
    if native:  # an emulator needs memory of its own
        outcomes += out_of_memory("checker", programs.batch, stored) + out_of_memory("gate", programs.gate, stored)
        outcomes += steady(programs) + little_stack(programs, stored)
    return tally(outcomes)


if __name__ == "__main__":
    if sys.argv[1:2] == ["--sheets"]:
        *commands, where = sys.argv[2:]
        every, outcomes = in_all_modes(Programs(*commands), "sheets", where)
        outcomes += at_points(Programs(*commands), "sheets", where)
        for asked in ((0, 1), (3, 0)):
            outcomes += repaired_folder(Programs(*commands), where, *asked, 4)
        sys.exit(tally(outcomes + by_the_longest_boundary(Programs(*commands), "sheets", where, every)))
    sys.exit(main(*sys.argv[1:]))
