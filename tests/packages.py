#!/usr/bin/env python3
"""GeoPackage files in the C++ checker and the Rust gate: both say of each row what the independent program says of its blob, line by line, and of what is no
GeoPackage what SQLite says; nothing is ever written to a file, nor beside it. A copy in which rows are repaired has no other change.

    python3 tests/packages.py CHECKER GATE FOLDER             'N passed, M failed'; FOLDER has blobs of every kind, as programs.py has them
    python3 tests/packages.py --sheets CHECKER GATE FOLDER    the same of rows in tables, of faults, and of what is left unwritten

CHECKER and GATE are commands, with an emulator before them where one is needed. Those that GDAL makes are tried by geopackage.py.
"""
import contextlib
import functools
import hashlib
import os
import re
import resource
import shlex
import shutil
import sqlite3
import struct
import subprocess
import sys
import tempfile

import independent
from independent import ROOT
from programs import (EMPTY, EXAMPLES, MODES, READ_CAP, WAYS, Programs, areas_after, both_repair, contents, equal, files_of, folder_of, kind, limited, line, progress_lines,
                      refused, repair_kind, repaired_line, run, shown, start, summary, told, unread, wkb_of)
from tally import tally

STRANGE = refused(50, 0)
MALFORMED = "database disk image is malformed"
NO_ID = "its application id is 0x00000000, which is no GeoPackage's"
NOTHING = "there is no row to check in it"

# ---------------------------------------------------------------------------------------------------------------- making


def quoted(name):
    """A name as SQL has it."""
    return '"%s"' % name.replace('"', '""')


def add(base, table, rows, column="geom", made="CREATE TABLE {table} (fid INTEGER PRIMARY KEY, {column} BLOB)"):
    """A table, named among the geometry columns, with these rows."""
    base.execute(made.format(table=quoted(table), column=quoted(column)))
    name(base, table, column)
    base.executemany("INSERT INTO %s VALUES (?, ?)" % quoted(table), rows)


def name(base, table, column="geom"):
    """A table or view among the geometry columns."""
    base.execute("INSERT INTO gpkg_geometry_columns VALUES (?, ?, 'GEOMETRY', -1, 0, 0)", (table, column))


def script(*words):
    """The script that the README has for making one, and what it says where it fails."""
    subprocess.run([sys.executable, os.path.join(EXAMPLES, "geopackage"), *words], check=True)


@contextlib.contextmanager
def base_of(path):
    """A database that is written and closed."""
    base = sqlite3.connect(path)
    yield base
    base.commit()
    base.close()


@functools.cache
def example():
    """The bytes of the examples' GeoPackage, as the README's script makes it."""
    with tempfile.TemporaryDirectory() as folder:
        path = os.path.join(folder, "made.gpkg")
        script(path, *wkb_of(EXAMPLES))
        return contents(path)


@contextlib.contextmanager
def package(change=None):
    """The path of a GeoPackage of our own in a folder of its own: that of the examples, or what a function makes of one without rows."""
    with folder_of({"town.gpkg": example()}) as folder:
        path = os.path.join(os.fsdecode(folder), "town.gpkg")
        if change is not None:
            with base_of(path) as base:
                base.executescript("DROP TABLE sheets; DELETE FROM gpkg_contents; DELETE FROM gpkg_geometry_columns")
                change(base)
        yield path


def blob_of(example):
    """An example's sheet in a blob without an envelope."""
    return struct.pack("<2s2Bi", b"GP", 0, 1, -1) + contents(os.path.join(EXAMPLES, example + ".wkb"))


def of_examples(path):
    """The lines of the examples' GeoPackage."""
    return [line("%s/sheets/%d" % (path, k), told(verdict)) for k, (verdict, _) in enumerate(independent.answers(wkb_of(EXAMPLES)), 1)]


def little(programs):
    """Little memory, and more for each core; not in an emulator, which needs memory of its own."""
    return {"preexec_fn": limited(resource.RLIMIT_DATA, (24 + 4 * os.cpu_count()) << 20)} if len(programs.gate.split()) == 1 else {}


# ---------------------------------------------------------------------------------------------------------------- rows


def in_tables(programs, folder):
    """The folder's blobs in the rows of three tables, in both modes and ways: verdict lines by table and id, and listings, as the independent program has them."""
    blobs = files_of(folder, ".gpb")
    tables = {"b": blobs[0::3], "it's \"A\"": blobs[1::3], "c": blobs[2::3]}
    ids = [7 * k - 20 for k in range(len(blobs))]

    def change(base):
        for table, paths in tables.items():
            add(base, table, [(fid, contents(path)) for fid, path in reversed(list(zip(ids, paths)))])

    outcomes = []
    with package(change) as path:
        placed = [("%s/%s/%d" % (path, table, fid), blob) for table in sorted(tables) for fid, blob in zip(ids, tables[table])]
        for mode, way, words in ((2, 0, []), (2, 1, ["--longest"]), (3, 0, ["--older"]), (3, 0, ["--older", "--blob"])):
            answers = independent.answers([blob for _, blob in placed], mode, way)
            lines = [line(row, told(verdict)) for (row, _), (verdict, _) in zip(placed, answers)]
            listed = [printed for (row, _), (_, listing) in zip(placed, answers) for printed in [shown(row) + ":", *listing]]
            outcomes += programs.same("rows, mode %d" % mode, [path, *words], lines)
            outcomes.append(equal("listings of rows", run(programs.checker, *words, path), (2, listed, [said for said in lines if kind(said) == 2])))
        outcomes.append(equal("kinds", {kind(said) for said in lines}, {0, 1, 2}))
    return outcomes


def narrowed(programs):
    """One table, one column, one id; by names in any case, the last word counts; what is not there; and files beside, which are checked whole."""
    def change(base):
        base.executescript("DROP TABLE gpkg_geometry_columns; CREATE TABLE gpkg_geometry_columns (table_name, column_name, g, s, z, m)")
        base.executescript("CREATE TABLE both (fid INTEGER PRIMARY KEY, old BLOB, new BLOB)")
        base.executemany("INSERT INTO both VALUES (?, ?, ?)", [(1, blob_of("clean"), blob_of("strip")), (-2, b"", blob_of("clean"))])
        name(base, "both", "old")
        name(base, "both", "new")
        add(base, "one", [(1, blob_of("strip")), (2, None)])

    outcomes, sheet = [], os.path.join(EXAMPLES, "clean.wkb")
    with package(change) as path:
        def said(table, fid, what):
            return line("%s/%s/%d" % (path, table, fid), what)
        new = [said("both.new", -2, "clean"), said("both.new", 1, "repair")]
        old = [said("both.old", -2, EMPTY), said("both.old", 1, "clean")]
        one = [said("one", 1, "repair"), said("one", 2, EMPTY)]
        for words, lines in (
                ([], new + old + one), (["--table", "both"], new + old), (["--table=ONE"], one), (["--column", "New"], new), (["--column", "geom"], one),
                (["--where-id", "1"], [new[1], old[1], one[0]]), (["--where-id=-2"], [new[0], old[0]]), (["--where-id", "-2"], [new[0], old[0]]),
                (["--table", "--older"], [unread(path, NOTHING)]), (["--table", "one", "--where-id", "2"], one[1:]),
                (["--table", "one", "--table", "both", "--column", "old", "--where-id", "1"], old[1:]), (["--table", "none"], [unread(path, NOTHING)]),
                (["--table", "one", "--column", "old"], [unread(path, NOTHING)]), (["--where-id", "9"], [unread(path, NOTHING)]),
                (["--where-id", str(2**63 - 1)], [unread(path, NOTHING)]), (["--table=-x"], [unread(path, NOTHING)]), (["--table", "[a,b]"], [unread(path, NOTHING)])):
            outcomes += programs.same("narrowed by %s" % words, [*words, path], lines)
        outcomes += programs.same("a sheet beside", ["--table", "one", sheet, path, sheet], [line(sheet, "clean"), *one, line(sheet, "clean")])
        for name_, program in (("checker", programs.checker), ("gate", programs.gate)):
            for number in ("x", "1.0", "+1", " 1", "1x", str(2**63), str(-2**63 - 1)):
                message = "%s: the option --where-id takes a whole number: see %s --help" % (name_, name_)
                outcomes.append(equal("--where-id=" + number, run(program, "--where-id=" + number, path), (3, [], [message])))
            for word in ("--table", "--column", "--where-id"):
                message = "%s: the option %s takes a value: see %s --help" % (name_, word, name_)
                for words in ([path, word], [path, word + "="], [word + "=", "--help"]):
                    outcomes.append(equal("%s without a value" % words, run(program, *words), (3, [], [message])))
    return outcomes


def odd_names(programs):
    """Tables and columns with names of every kind, quoted and printed; the order is that of their bytes."""
    every = ["a b", 'say "x"', "it's", "[x]", "`x`", "select", "1", "a/b", "a\\b", "tab\tx", "line\nfeed", "\x1b[31m", "\u202ex", "é", "日本", "%s", "--", "", "A", "x;y", "?1"]
    column = 'my "geometry"\n'

    def change(base):
        for k, table in enumerate(every):
            add(base, table, [(k, blob_of("clean"))], column)

    with package(change) as path:
        named = sorted((table.encode(), k) for k, table in enumerate(every))
        lines = [line(os.fsencode(path) + b"/%s/%d" % row, "clean") for row in named]
        outcomes = programs.same("names of tables", [path], lines)
        outcomes += programs.same("one of them", ["--table", every[1], "--column", column, path], [line("%s/%s/1" % (path, every[1]), "clean")])
    files = ["with space.gpkg", "per%cent?mode=rw#x.GPKG", "é\n.Gpkg", "file:x.gpkg", "\udcff.gpkg"]
    with folder_of(dict.fromkeys(files, example())) as folder:
        outcomes += programs.same("names of files", files, sum(map(of_examples, files), []), cwd=folder)
    return outcomes


def values(programs):
    """What a row may hold: NULL, numbers, texts, blobs longer than any sheet, which are not held in memory, in a table and in a view; a column of TEXT."""
    clean = blob_of("clean")
    said = {1: (None, EMPTY), 2: (b"", EMPTY), 3: ("", EMPTY), 4: ("GP", refused(1, 0, 2)), 5: ("text", STRANGE), 6: (7, EMPTY), 7: (-1.5, STRANGE), 8: (b"GP\0", refused(1, 0, 3)),
            9: (clean, "clean"), 10: (clean + bytes(READ_CAP - len(clean)), refused(7, 0, len(clean))), 11: (clean + bytes(300_000), refused(7, 0, len(clean))),
            12: (bytes(READ_CAP + 1), STRANGE)}

    def change(base):
        rows = [(fid, value) for fid, (value, _) in said.items()]
        add(base, "any", rows)
        add(base, "words", rows, made="CREATE TABLE {table} (fid INTEGER PRIMARY KEY, {column} TEXT)")
        base.execute("INSERT INTO any VALUES (20, zeroblob(100000000)), (21, NULL)")
        base.execute("CREATE VIEW seen AS SELECT fid, geom FROM any")
        name(base, "seen")

    outcomes = []
    with package(change) as path:
        def of(table, more):
            return [line("%s/%s/%d" % (path, table, fid), what) for fid, (_, what) in said.items()] + [line("%s/%s/%d" % (path, table, fid), what) for fid, what in more]
        too_big = [(fid, "could not be read: string or blob too big") for fid in (11, 12, 20)]
        seen = [said_ for said_ in of("seen", []) if not re.search(r"/(11|12): ", said_)]
        seen = seen[:10] + [line("%s/seen/%d" % (path, fid), what) for fid, what in (*too_big, (21, EMPTY))]
        lines = of("any", [(20, STRANGE), (21, EMPTY)]) + seen + of("words", [])
        outcomes += programs.same("values", [path], lines)
        return outcomes + programs.same("a row longer than memory", ["--table", "any", path], of("any", [(20, STRANGE), (21, EMPTY)]), **little(programs))


def ids(programs):
    """What the id of a row is: the primary key; without one the row's number; in a view its first column. Columns named like the number; and rows with none."""
    blobs = [blob_of("clean"), blob_of("strip")]

    def change(base):
        add(base, "key", [("b", blobs[0]), ("a\n", blobs[1])], made="CREATE TABLE {table} (k TEXT PRIMARY KEY, {column})")
        add(base, "keyless", [("x", blobs[0]), ("x", blobs[1])], made="CREATE TABLE {table} (k, {column})")
        add(base, "mine", [("7", blobs[0] + bytes(READ_CAP)), ("5", blobs[1])], made="CREATE TABLE {table} (rowid, {column})")
        add(base, "narrow", [("y", blobs[0]), ("x", blobs[1])], made="CREATE TABLE {table} (k PRIMARY KEY, {column}) WITHOUT ROWID")
        add(base, "two", [("y", blobs[0]), ("x", blobs[1])], made="CREATE TABLE {table} (k, {column}, PRIMARY KEY (k, {column})) WITHOUT ROWID")
        add(base, "real", [(2.5, blobs[0]), (None, blobs[1]), (b"\xff", b"")], made="CREATE TABLE {table} (k PRIMARY KEY, {column})")
        base.execute("CREATE VIEW view AS SELECT 10 - rowid AS n, geom FROM keyless")
        base.execute("CREATE VIEW words AS SELECT k, geom FROM key")
        name(base, "view")
        name(base, "words")

    with package(change) as path:
        rows = [("key/a\n", "repair"), ("key/b", "clean"), ("keyless/1", "clean"), ("keyless/2", "repair"), ("mine/1", refused(7, 0, len(blobs[0]))), ("mine/2", "repair"),
                ("narrow/x", "repair"), ("narrow/y", "clean"), ("real/NULL", "repair"), ("real/2.5", "clean"), (b"real/\xff", EMPTY), ("two/x", "repair"), ("two/y", "clean"),
                ("view/8", "repair"), ("view/9", "clean"), ("words/a\n", "repair"), ("words/b", "clean")]
        lines = [line(os.fsencode(path) + b"/" + os.fsencode(row), said) for row, said in rows]
        return programs.same("ids", [path], lines) + programs.same("one of a view", ["--table", "view", "--where-id", "8", path], lines[-4:-3])


# ---------------------------------------------------------------------------------------------------------------- what is none


def damaged(programs):
    """Pages that are overwritten, and a file that is cut: the rows before them, then SQLite's reason; the tables behind are read."""
    rows = [(fid, blob_of("clean") + bytes(3000)) for fid in range(40)]
    said = refused(7, 0, len(blob_of("clean")))
    outcomes = []
    with package(lambda base: [add(base, table, rows) for table in ("a", "b")]) as path:
        with sqlite3.connect(path) as base:
            root, = base.execute("SELECT rootpage FROM sqlite_master WHERE name = 'a'").fetchone()
        base.close()
        whole = contents(path)
        last = struct.unpack(">I", whole[(root - 1) * 4096 + 8:][:4])[0]
        with open(path, "r+b") as f:
            f.seek((last - 1) * 4096)
            f.write(b"\xff" * 4096)
        gone = run(programs.batch, path)
        first = [said_ for said_ in gone[1] if "/a/" in said_]
        lines = [line("%s/a/%d" % (path, fid), said) for fid in range(len(first))] + [unread(path + "/a", MALFORMED)]
        lines += [line("%s/b/%d" % (path, fid), said) for fid in range(40)]
        outcomes += programs.same("a damaged page", [path], lines) + [equal("rows before it", 20 < len(first) < 40, True)]
        with open(path, "wb") as f:
            f.write(whole[:len(whole) // 2])
        outcomes += programs.same("a file cut in half", [path], [unread(path, MALFORMED)])
        for size, why in ((100, MALFORMED), (60, NO_ID), (0, NO_ID)):
            with open(path, "wb") as f:
                f.write(whole[:size])
            outcomes += programs.same("%d bytes of it" % size, [path], [unread(path, why)])
    return outcomes


def no_packages(programs):
    """Files that are none: another database, one without the tables, one that names what is not there, a sheet, noise, a folder, nothing."""
    tables = {
        "DROP TABLE gpkg_geometry_columns": "no such table: gpkg_geometry_columns",
        "ALTER TABLE gpkg_geometry_columns RENAME COLUMN table_name TO x": "no such column: table_name",
        "DELETE FROM gpkg_geometry_columns": NOTHING, "DELETE FROM sheets": NOTHING,
        "PRAGMA application_id = 0": NO_ID,
        "PRAGMA application_id = -2": "its application id is 0xfffffffe, which is no GeoPackage's",
    }
    rows = {
        "DROP TABLE sheets": ("sheets", "no such table: sheets"),
        "UPDATE gpkg_geometry_columns SET column_name = 'shape'": ("sheets", "no such column: t.shape"),
        "UPDATE gpkg_geometry_columns SET table_name = 'x\ny'": ("x\ny", "no such table: x\\x0ay"),
        "UPDATE gpkg_geometry_columns SET table_name = CAST(x'ff' AS TEXT)": (b"\xff", "its name isn't text that a statement can have"),
        "UPDATE gpkg_geometry_columns SET column_name = 'geom' || char(0)": ("sheets", "its name isn't text that a statement can have"),
        "DROP TABLE sheets; CREATE VIEW sheets AS SELECT 1 AS fid, ST_Buffer(x'00') AS geom": ("sheets", "no such function: ST_Buffer"),
        "DROP TABLE sheets; CREATE VIEW sheets AS SELECT * FROM gone": ("sheets", "no such table: main.gone"),
    }
    outcomes = []
    for change, why in [*tables.items(), *rows.items()]:
        with package() as path:
            with base_of(path) as base:
                base.executescript(change)
            at = os.fsencode(path) if isinstance(why, str) else os.fsencode(path) + b"/" + os.fsencode(why[0])
            outcomes += programs.same(change, [path], [unread(at, why if isinstance(why, str) else why[1])])
    for known in (0x47503130, 0x47503131):
        with package() as path:
            with base_of(path) as base:
                base.execute("PRAGMA application_id = %d" % known)
            outcomes += programs.same("an older version", [path], of_examples(path))
    files = {"noise.gpkg": (os.urandom(1) * 5000, "file is not a database"), "sheet.gpkg": (contents(os.path.join(EXAMPLES, "strip.wkb")), "file is not a database")}
    with folder_of({name_: content for name_, (content, _) in files.items()}) as folder:
        paths = [os.path.join(folder, name_.encode()) for name_ in files]
        os.mkfifo(os.path.join(folder, b"pipe.gpkg"))
        os.symlink(b"none", os.path.join(folder, b"gone.gpkg"))
        lines = [unread(path, why) for path, (_, why) in zip(paths, files.values())]
        lines += [unread(os.path.join(folder, b"pipe.gpkg"), "it is a pipe"), unread(os.path.join(folder, b"gone.gpkg"), 2)]
        outcomes += programs.same("no databases", [*paths, os.path.join(folder, b"pipe.gpkg"), os.path.join(folder, b"gone.gpkg")], lines)
        deep = os.path.join(folder, *[b"s" * 250] * 2, b"x.gpkg")
        os.makedirs(os.path.dirname(deep))
        shutil.copy(paths[0], deep)
        outcomes += programs.same("a path longer than SQLite takes", [deep], [unread(deep, "unable to open database file")])
        os.mkdir(os.path.join(folder, b"x.gpkg"))
        where = os.path.join(folder, b"x.gpkg")
        outcomes.append(equal("a folder for the checker", run(programs.batch, where), (3, [unread(where, "it is a folder")], [])))
    return outcomes


# ---------------------------------------------------------------------------------------------------------------- nothing is written


def state(folder):
    """What a folder has in it: each file's content and when it was written."""
    return {entry.name: (hashlib.sha256(contents(entry.path)).hexdigest(), entry.stat().st_mtime_ns) for entry in os.scandir(folder) if entry.is_file()}


def kept(programs, what, path, lines):
    """Do both programs print these lines, and is every file beside it as it was?"""
    before = state(os.path.dirname(path))
    return programs.same(what, [path], lines) + [equal(what + ", what is kept", state(os.path.dirname(path)), before)]


@contextlib.contextmanager
def with_changes(path):
    """A GeoPackage with a row more, 10, in a -wal beside it, while another program has it open."""
    base = sqlite3.connect(path, isolation_level=None)
    base.execute("PRAGMA journal_mode = wal")
    base.execute("PRAGMA wal_autocheckpoint = 0")
    base.execute("INSERT INTO sheets (geom) VALUES (?)", (blob_of("strip"),))
    yield base
    base.close()


def unwritten(programs):
    """Nothing is written, whatever stands beside a file: the changes in a -wal are seen, with the program that made them and without; an empty -wal, one that is
    no more than named in the file, one of an empty file; a link elsewhere."""
    outcomes = []
    with package() as path:
        lines, one_more = of_examples(path), [line(path + "/sheets/10", "repair")]
        outcomes += kept(programs, "as it is", path, lines)
        with with_changes(path):
            outcomes += kept(programs, "changes of another program", path, lines + one_more)
            with tempfile.TemporaryDirectory() as other:
                copy = os.path.join(other, "copy.gpkg")
                for end in ("", "-wal"):
                    shutil.copy(path + end, copy + end)
                copied = [said.replace(path, copy) for said in lines + one_more]
                outcomes += kept(programs, "changes that are left", copy, copied)
                os.symlink(copy, os.path.join(os.path.dirname(path), "link.gpkg"))
                link = os.path.join(os.path.dirname(path), "link.gpkg")
                outcomes += kept(programs, "by a link", link, [said.replace(copy, link) for said in copied]) + [equal("beside the link", sorted(os.listdir(other)), ["copy.gpkg", "copy.gpkg-wal"])]
                os.truncate(copy + "-wal", 0)
                outcomes += kept(programs, "an empty -wal", copy, copied[:-1])
                os.remove(copy + "-wal")
                outcomes += kept(programs, "no -wal", copy, copied[:-1])
                shutil.copy(path + "-wal", copy + "-wal")
                os.truncate(copy, 0)
                outcomes += kept(programs, "an empty file with a -wal", copy, [unread(copy, NO_ID)])
    return outcomes


def broken_off(programs):
    """A program that was ended while it was writing leaves a journal: reading would have to write, and is refused by SQLite."""
    with package() as path:
        with sqlite3.connect(path, isolation_level=None) as base:
            base.execute("PRAGMA cache_size = 1")
            base.execute("BEGIN")
            for _ in range(20):
                base.execute("INSERT INTO sheets (geom) VALUES (zeroblob(50000))")
            files = {end: contents(path + end) for end in ("", "-journal")}
            base.execute("ROLLBACK")
        base.close()
        for end, content in files.items():
            with open(path + end, "wb") as f:
                f.write(content)
        return kept(programs, "a journal", path, [unread(path, "attempt to write a readonly database")])


def at_work(programs):
    """Another program has the file for itself: it is waited for, and then could not be read."""
    outcomes = []
    with package() as path:
        base = sqlite3.connect(path, isolation_level=None)
        base.execute("BEGIN EXCLUSIVE")
        for command in (programs.batch, programs.gate):
            outcomes.append(equal("locked", run(command, path)[:2], (3, [unread(path, "database is locked")] + [summary([unread(path, "x")])] * (command == programs.gate))))
        base.execute("ROLLBACK")
        base.close()
        return outcomes + programs.same("no longer locked", [path], of_examples(path))


def without_rights(programs):
    """A user who may write neither the file nor the folder, with changes beside it and without; and one who may not read it."""
    if os.getuid() != 0:
        return []
    outcomes = []
    with package() as path, tempfile.TemporaryDirectory() as tools:
        folder = os.path.dirname(path)
        with with_changes(path):
            for end in ("", "-wal"):
                shutil.copy(path + end, os.path.join(folder, "copy.gpkg" + end))
        lines = of_examples(path) + [line(path + "/sheets/10", "repair")]
        names = ("town.gpkg", "copy.gpkg")
        os.chmod(folder, 0o555)
        os.chmod(tools, 0o755)
        own = ["setpriv", "--reuid=65534", "--regid=65534", "--clear-groups"]
        for command in (programs.batch, programs.gate):
            program = shutil.copy(next(word for word in command.split() if os.path.isfile(word) and "qemu" not in word), tools)
            words = [program if os.path.basename(word) == os.path.basename(program) else word for word in command.split()]
            for name_ in names:
                at = os.path.join(folder, name_)
                os.chmod(at, 0o444)
                got = run(shlex.join(own + words), at)
                outcomes.append(equal("without rights", got[1][:10], [said.replace(path, at) for said in lines]))
                os.chmod(at, 0o000)
                outcomes.append(equal("not to be read", run(shlex.join(own + words), at)[1][:1], [unread(at, 13)]))
        os.chmod(folder, 0o755)
    return outcomes


# ---------------------------------------------------------------------------------------------------------------- repair


def rows_in(path, table="sheets", column="geom"):
    """The rows of a table, by number."""
    with base_of(path) as base:
        return dict(base.execute("SELECT rowid, %s FROM %s" % (column, quoted(table))).fetchall())


def rest_of(path, table="sheets"):
    """All of a database but the rows of a table; and whether it is sound."""
    with base_of(path) as base:
        sound = base.execute("PRAGMA integrity_check").fetchall()
        return [said for said in base.iterdump() if not said.startswith('INSERT INTO "%s"' % table)], sound


def repaired(programs, what, path, lines, words=(), **more):
    """Do both make the same copy, and say so, and is what stands beside the file as it was? The rows of the copy's table, and the rest of it; nothing where there is no copy."""
    before = state(os.path.dirname(path))
    outcomes, copy = both_repair(programs, what, [*words, path], lines, out="out.gpkg", **more)
    outcomes.append(equal(what + ", what is kept", state(os.path.dirname(path)), before))
    if copy is None:
        return outcomes, ({}, ())
    with folder_of({"copy.gpkg": copy}) as folder:
        new = os.path.join(os.fsdecode(folder), "copy.gpkg")
        outcomes.append(equal(what + ", its journal", copy[18:20], b"\1\1"))
        return outcomes, (rows_in(new), rest_of(new))


def repaired_rows(programs):
    """The rows of the examples' GeoPackage, and one more in a -wal: each is what is made of its blob alone, one that is refused is as it was, and so is all else. Only the rows
    that are asked for are changed."""
    outcomes = []
    with package() as path, tempfile.TemporaryDirectory() as beside:
        wanted, lines = {}, []
        for number, blob in [*rows_in(path).items(), (10, blob_of("strip"))]:
            alone, new = os.path.join(beside, "a.gpb"), os.path.join(beside, "%d.gpb" % number)
            with open(alone, "wb") as f:
                f.write(blob)
            said = run(programs.checker, "--blob", "--repair", new, alone)[1][0].partition(": ")[2]
            wanted[number] = contents(new) if os.path.exists(new) else blob
            lines.append(line("%s/sheets/%d" % (path, number), said))
        rest, before = rest_of(path), rows_in(path)
        more, (rows, others) = repaired(programs, "rows", path, lines[:9])
        outcomes += more + [equal("rows", rows, {number: blob for number, blob in wanted.items() if number < 10}), equal("the rest", others, rest)]
        more, (rows, others) = repaired(programs, "one row", path, lines[8:9], ["--table", "Sheets", "--where-id", "9"])
        outcomes += more + [equal("one row", rows, {**before, 9: wanted[9]}), equal("the rest of it", others, rest)]
        with with_changes(path):
            more, (rows, _) = repaired(programs, "changes beside it", path, lines)
            outcomes += more + [equal("rows with changes", rows, wanted)]
        for words in (["--table", "none"], ["--where-id", "99"]):
            outcomes += repaired(programs, "no row", path, [unread(path, NOTHING)], words)[0]
    return outcomes + [equal("rows of each kind", {repair_kind(said) for said in lines}, {0, 2})]


def repaired_blobs(programs, folder):
    """Generated blobs in a table, in both ways and of both editions: the lines, and the areas in the copy, are those that the independent program has after repair."""
    outcomes, blobs = [], files_of(folder, ".gpb")[::3]
    with package(lambda base: add(base, "sheets", [(fid, contents(path)) for fid, path in enumerate(blobs)])) as path:
        for mode, way in ((2, 1), (3, 0)):
            answers = independent.answers(blobs, mode, way)
            lines = [line("%s/sheets/%d" % (path, fid), repaired_line(*answer)) for fid, answer in enumerate(answers)]
            with tempfile.TemporaryDirectory() as out:
                got = run(programs.gate, "--repair", os.path.join(out, "out.gpkg"), *MODES[mode], *WAYS[way], path)[1]
            over = {fid: said for fid, said in enumerate(got) if ": over the limits: " in said}
            lines = [over.get(fid, said) for fid, said in enumerate(lines)]
            more, (rows, _) = repaired(programs, "blobs, mode %d, way %d" % (mode, way), path, lines, MODES[mode] + WAYS[way])
            made = [fid for fid, said in enumerate(lines) if repair_kind(said) < 2]
            with folder_of({"%d" % fid: rows[fid] for fid in made}) as new:
                found = independent.answers([os.path.join(os.fsdecode(new), "%d" % fid) for fid in made], 2)
            areas = [(verdict, [said.split()[2] for said in listing if said.startswith("polygon ")]) for verdict, listing in found]
            outcomes += more + [equal("areas", areas, [("clean", areas_after(answers[fid][1])) for fid in made]), equal("enough", len(made) > 10, True)]
            others = [fid for fid in range(len(blobs)) if fid not in made]
            outcomes.append(equal("the others", [rows[fid] for fid in others], [contents(blobs[fid]) for fid in others]))
    return outcomes


def repaired_apart(programs):
    """Rows of a view, and of a table without row numbers, can't be changed; a trigger that SQLite has no function for is not run."""
    def change(base):
        add(base, "sheets", [(1, blob_of("strip"))])
        base.execute("CREATE TRIGGER frame AFTER UPDATE OF geom ON sheets WHEN NOT ST_IsEmpty(NEW.geom) BEGIN DELETE FROM sheets; END")
        add(base, "narrow", [("x", blob_of("strip")), ("y", b"")], made="CREATE TABLE {table} (k PRIMARY KEY, {column}) WITHOUT ROWID")
        base.execute("CREATE VIEW seen AS SELECT fid, geom FROM sheets")
        name(base, "seen")

    fixed = "could not be written to out.gpkg: its table is a view, or has no row numbers"
    with package(change) as path:
        lines = [line(path + "/narrow/x", fixed), line(path + "/narrow/y", EMPTY), line(path + "/seen/1", fixed), line(path + "/sheets/1", "repaired")]
        outcomes, (rows, _) = repaired(programs, "a view", path, lines)
        outcomes.append(equal("the row", list(rows) == [1] and rows[1] != blob_of("strip"), True))
        more, _ = repaired(programs, "without it", path, lines[3:], ["--table", "sheets"])
        return outcomes + more


def repair_places(programs):
    """Where a copy can't be written: over the file itself, under a name of another kind, where SQLite has changes for a file of its name; a file that is none has no copy."""
    outcomes = []
    with package() as path:
        folder, lines = os.path.dirname(path), of_examples(path)
        repairs = [said.replace(": repair", ": repaired") for said in lines]
        repairs[4] = line(path + "/sheets/5", refused(30, 0))
        more, made = repaired(programs, "a file that is there", path, repairs, before={"out.gpkg": b"old"})
        outcomes += more + [equal("it is replaced", len(made[0]), 9)]
        for end in ("-wal", "-journal"):
            why = "could not be written to out.gpkg: SQLite's changes to a file of that name stand beside it"
            outcomes += both_repair(programs, "changes", [path], [line(path, why)], out="out.gpkg", before={"out.gpkg" + end: b""})[0]
        outcomes += both_repair(programs, "another kind", [path], [line(path, "could not be written to out.wkb: a GeoPackage's name ends in .gpkg")])[0]
        before = state(folder)
        for command in (programs.checker, programs.gate):
            got = run(command, "--repair", path, path)
            outcomes.append(equal("itself", (got[0], got[1][0]), (3, line(path, "could not be written to %s: it is the input itself" % path))))
        outcomes.append(equal("it is kept", state(folder), before))
    with package() as path, folder_of({}) as folder:
        for name_, command in (("checker", programs.checker), ("gate", programs.gate)):
            with open("/dev/full", "wb") as full:
                message = "%s: standard output could not be written: %s" % (name_, os.strerror(28))
                outcomes.append(equal("a full disk", run(command, "--repair", "out.gpkg", path, stdout=full, cwd=folder), (3, [], [message])))
            outcomes.append(equal("nothing is left of it", os.listdir(folder), []))
    with folder_of({"noise.gpkg": b"x" * 5000}) as folder:
        noise = os.path.join(folder, b"noise.gpkg")
        return outcomes + both_repair(programs, "noise", [noise], [unread(noise, "file is not a database")], out="out.gpkg")[0]


# ---------------------------------------------------------------------------------------------------------------- many


def meanwhile(programs, path, lines):
    """A program that writes while a long file is read: it is kept from it by SQLite's lock where the file has a journal; else the change is told in the end."""
    outcomes = []
    base = sqlite3.connect(path, isolation_level=None, timeout=0)
    for journal in ("delete", "wal"):
        for command in (programs.batch, programs.gate):
            base.execute("PRAGMA journal_mode = " + journal)
            base.close()
            with start(command, path, bufsize=0) as program:
                first = program.stdout.readline()
                base = sqlite3.connect(path, isolation_level=None, timeout=0)
                try:
                    base.execute("UPDATE t SET geom = NULL WHERE fid = 19999")
                    written = True
                except sqlite3.OperationalError as error:
                    written = str(error)
                printed = (first + program.communicate()[0]).decode().splitlines()
            changed = [unread(path, "it was changed while it was read")]
            outcomes.append(equal("written meanwhile", written, True if journal == "wal" else "database is locked"))
            outcomes.append(equal("what is printed then", printed[:20_000] + printed[20_000:][:1] * (journal == "wal"), lines + changed * (journal == "wal")))
            base.execute("UPDATE t SET geom = (SELECT geom FROM t WHERE fid = 1) WHERE fid = 19999")
    base.close()
    return outcomes


def many(programs):
    """A file of 20,000 sheets takes no more memory than a few, also while an earlier sheet is waited for, and its progress is told; a folder of files and GeoPackages."""
    outcomes, clean = [], blob_of("clean")
    with package(lambda base: add(base, "t", ((fid, clean + bytes(3000)) for fid in range(20_000)))) as path:
        said = refused(7, 0, len(clean))
        lines = [line("%s/t/%d" % (path, fid), said) for fid in range(20_000)]
        for command, more in ((programs.batch, []), (programs.gate, [summary(lines)])):
            outcomes.append(equal("20,000 rows", run(command, path, **little(programs)), (2, lines + more, [])))
        outcomes += progress_lines(programs.gate, ["-", path], ([b"1 sheets checked"], [b"20001 sheets checked"])) + meanwhile(programs, path, lines)
    return outcomes


def folders(programs):
    """A folder with sheets, blobs and GeoPackages: with --blob and without, in the order of the paths."""
    with package() as path:
        folder = os.path.dirname(path)
        for name_, content in (("a.wkb", b""), ("z.wkb", b""), ("b.gpb", b""), ("u/x.txt", b"")):
            os.makedirs(os.path.dirname(os.path.join(folder, name_)), exist_ok=True)
            with open(os.path.join(folder, name_), "wb") as f:
                f.write(content)
        shutil.copy(path, os.path.join(folder, "u", "V.GpKg"))

        def of(name_):
            at = os.path.join(folder, name_)
            return [line(at, EMPTY)] if name_[-4] == "." and name_[-3:] in ("wkb", "gpb") else [said.replace(path, at) for said in of_examples(path)]
        outcomes = []
        for words, names_, passed, end in (([], ("a.wkb", "town.gpkg", "u/V.GpKg", "z.wkb"), ("b.gpb", "u/x.txt"), ".wkb"),
                                           (["--blob"], ("b.gpb", "town.gpkg", "u/V.GpKg"), ("a.wkb", "u/x.txt", "z.wkb"), ".gpb")):
            lines = sum(map(of, names_), [])
            messages = ["gate: " + line(os.path.join(folder, name_), "passed over: its name doesn't end in %s or .gpkg" % end) for name_ in passed]
            outcomes.append(equal("a folder", run(programs.gate, *words, folder), (2, lines + [summary(lines, len(passed))], messages)))
        return outcomes


def readme(programs):
    """The README's command, in this repository, with the gate on the PATH: what it prints is what stands below it."""
    with open(os.path.join(ROOT, "README.md"), encoding="utf-8") as f:
        text = f.read()
    (command,), printed = re.findall(r"^    (examples/geopackage .* && gate .*\.gpkg)$", text, re.M), re.findall(r"^    (\S+\.gpkg/\S+: .*|\d+ sheets: .*)$", text, re.M)
    with tempfile.TemporaryDirectory() as tools:
        with open(os.path.join(tools, "gate"), "w", encoding="utf-8") as f:
            f.write('#!/bin/sh\nexec %s "$@"\n' % programs.gate)
        os.chmod(os.path.join(tools, "gate"), 0o755)
        done = subprocess.run(["sh", "-c", command], cwd=ROOT, env={**os.environ, "PATH": tools + ":" + os.environ["PATH"]}, stdout=subprocess.PIPE, text=True)
    lines = done.stdout.splitlines()
    return [equal("the README's command", done.returncode, 2), equal("what stands below it", [said for said in printed if said not in lines], []), equal("enough of it", len(printed) > 3, True)]


def faults(programs):
    """The example with faults, each refused by the library's own code."""
    with tempfile.TemporaryDirectory() as folder:
        path = os.path.join(folder, "faults.gpkg")
        script("--faults", path, *wkb_of(EXAMPLES))
        size = len(blob_of("clean"))
        said = [EMPTY, STRANGE, EMPTY, EMPTY, refused(3, 0, 9), refused(1, 3, size - 16), refused(7, 0, size), STRANGE, STRANGE]
        lines = [line("%s/faults/%d" % (path, fid), what) for fid, what in enumerate(said, 1)]
        return programs.same("the example with faults", [path], lines + of_examples(path))


def main(checker, gate, folder):
    programs = Programs(checker, gate)
    outcomes = in_tables(programs, folder) + narrowed(programs) + odd_names(programs) + values(programs) + ids(programs) + faults(programs)
    outcomes += damaged(programs) + no_packages(programs) + unwritten(programs) + broken_off(programs) + at_work(programs) + without_rights(programs)
    outcomes += repaired_rows(programs) + repaired_blobs(programs, folder) + repaired_apart(programs) + repair_places(programs)
    outcomes += folders(programs) + many(programs) + readme(programs)
    return tally(outcomes)


if __name__ == "__main__":
    if sys.argv[1:2] == ["--sheets"]:
        *commands, where = sys.argv[2:]
        sys.exit(tally(in_tables(Programs(*commands), where) + faults(Programs(*commands)) + unwritten(Programs(*commands)) + repaired_rows(Programs(*commands))))
    sys.exit(main(*sys.argv[1:]))
