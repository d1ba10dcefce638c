#!/usr/bin/python3
"""Blobs between the library, GDAL and SQLite: those of a GeoPackage that GDAL writes are read, and are the library's own byte for byte; those that the library
writes, put into a table by SQLite, are read by GDAL, by its ogrinfo too, and by SQLite. The checker and the gate say of each row of GDAL's files, and of such a
file with a view, an R-tree and geometries of every kind, what the independent program says of its blob. The rings that the library joins are read by GDAL as the
MultiLineString that they are, and the polygons of repaired sheets as valid ones; and a GeoPackage of GDAL's, repaired, is one that GDAL reads, with its R-tree.

    /usr/bin/python3 tests/geopackage.py BRIDGE CHECKER GATE    'N passed, M failed', with Debian's Python, which has GDAL (python3-gdal)

BRIDGE, CHECKER and GATE are commands, with an emulator before them where one is needed.
"""
import glob
import os
import re
import sqlite3
import struct
import subprocess
import sys
import tempfile

from osgeo import gdal, ogr, osr

import independent
from programs import Programs, areas_after, both_repair, contents, folder_of, line, repaired_line, told
from tally import tally

EXAMPLES = os.path.join(os.path.dirname(os.path.dirname(os.path.abspath(__file__))), "examples")
ROOM = 158_330
NUMBERS_BY, WRITE_BLOB, RINGS, BLOB = 8, 13, 20, 2
# The tables: a reference system by its EPSG code, or none, and the number that GDAL gives it.
TABLES = {"utm": (25832, 25832), "degrees": (4326, 4326), "plain": (None, 0)}
# A sheet whose frame has four different bounds, which the examples have not.
FAR = """GEOMETRYCOLLECTION (TIN (((-3 20,10000000 20,10000000 24,-3 20)),((-3 20,10000000 24,-3 24,-3 20))),
    POLYGON ((-3 20,10000000 20,10000000 24,-3 24,-3 20)))"""
# What a user of SQLite asks of a blob, by the functions of the standard: the header's envelope and number, whether it is empty, and what it is.
ASKED = "ST_MinX(geom), ST_MaxX(geom), ST_MinY(geom), ST_MaxY(geom), ST_SRID(geom), ST_IsEmpty(geom), ST_GeometryType(geom)"


def equal(what, got, wanted):
    """Is it as it should be? What is not is printed."""
    if got != wanted:
        print("%s:\n  got    %s\n  wanted %s" % (what, str(got)[:1000], str(wanted)[:1000]))
    return got == wanted


def call(bridge, function, mode, given, polygon=0):
    """The code of an entry's answer, and what it writes, whose item is its length."""
    frame = struct.pack("<B5I", function, mode, 0, polygon, len(given), ROOM) + given
    printed = subprocess.run(bridge.split(), input=frame, stdout=subprocess.PIPE, check=True).stdout
    packed, lent = struct.unpack("<Q", printed[:8])[0], printed[8:]
    return packed % 256, lent[:packed // 256] if packed % 256 == 0 else b""


def sheets():
    """Sheets that GDAL takes, by name: the examples whose table has triangles and no polygons for pieces, and one far away."""
    found = {}
    for path in sorted(glob.glob(os.path.join(EXAMPLES, "*.wkb"))):
        with open(path, "rb") as f:
            found[os.path.basename(path)[:-4]] = f.read()
    del found["nested"]
    return {**found, "far": bytes(ogr.CreateGeometryFromWkt(FAR).ExportToIsoWkb(ogr.wkbNDR))}


def table_of(package, name, code):
    """A table in a GeoPackage."""
    system = None
    if code is not None:
        system = osr.SpatialReference()
        system.ImportFromEPSG(code)
    return package.CreateLayer(name, system, ogr.wkbUnknown, ["SPATIAL_INDEX=NO", "FID=fid", "GEOMETRY_NAME=geom"])


def put(table, geometry):
    feature = ogr.Feature(table.GetLayerDefn())
    feature.SetGeometry(geometry)
    table.CreateFeature(feature)


def write(path, geometries):
    """A GeoPackage by GDAL, whose tables have these geometries each."""
    package = ogr.GetDriverByName("GPKG").CreateDataSource(path)
    for name, (code, _) in TABLES.items():
        table = table_of(package, name, code)
        for geometry in geometries:
            put(table, geometry)


def blobs_of(path, name):
    """The blobs of a table, by SQLite."""
    with sqlite3.connect(path) as base:
        return [blob for blob, in base.execute("SELECT geom FROM %s ORDER BY fid" % name)]


def verdicts(command, folder, names, end, *words):
    """What a program says of the files of these names, without their names."""
    paths = [os.path.join(folder, name + end) for name in names]
    printed = subprocess.run(command.split() + list(words) + paths, stdout=subprocess.PIPE).stdout.decode()
    return [said.partition(end + ":")[2] for said in printed.splitlines()][:len(names)]


def read_and_written(bridge, checker, gate, path):
    """GDAL's blobs are read with the table's number, their verdicts are those of the sheets, and the library writes the same bytes."""
    outcomes, known = [], sheets()
    for table, (_, system) in TABLES.items():
        blobs = dict(zip(known, blobs_of(path, table)))
        for name, blob in blobs.items():
            numbers = call(bridge, NUMBERS_BY, 0, known[name])[1]
            of_blob = struct.pack("<i", system) + numbers
            outcomes.append(equal("%s in %s, its numbers" % (name, table), call(bridge, NUMBERS_BY, BLOB, blob), (0, of_blob)))
            outcomes.append(equal("%s in %s, written" % (name, table), call(bridge, WRITE_BLOB, 0, of_blob), (0, blob)))
        with tempfile.TemporaryDirectory() as folder:
            for end, files in ((".wkb", known), (".gpb", blobs)):
                for name, content in files.items():
                    with open(os.path.join(folder, name + end), "wb") as f:
                        f.write(content)
            for command in (checker + " --batch", gate):
                plain = verdicts(command, folder, known, ".wkb")
                outcomes.append(equal("verdicts of " + table, verdicts(command, folder, known, ".gpb", "--blob"), plain))
    return outcomes


def put_by_sqlite(bridge, path):
    """Puts the library's blobs into a table, in another order than GDAL's were; the row of each sheet."""
    known = sheets()
    rows = dict(zip(known, range(len(known), 0, -1)))
    with sqlite3.connect(path) as base:
        for name, sheet in known.items():
            numbers = call(bridge, NUMBERS_BY, 0, sheet)[1]
            base.execute("UPDATE utm SET geom = ? WHERE fid = ?", (call(bridge, WRITE_BLOB, 0, struct.pack("<i", 25832) + numbers)[1], rows[name]))
    return rows


def read_by_others(path, rows):
    """The library's blobs are read by GDAL as the sheets that they hold, and by SQLite's users as the header with the frame, by the bytes and by functions."""
    outcomes, known = [], sheets()
    package = ogr.Open(path)
    table = package.GetLayerByName("utm")
    outcomes.append(equal("the reference system", table.GetSpatialRef().GetAuthorityCode(None), "25832"))
    blobs = dict(enumerate(blobs_of(path, "utm"), 1))
    for name, fid in rows.items():
        feature = table.GetFeature(fid)
        geometry = feature.GetGeometryRef()
        outcomes.append(equal(name + " by GDAL", bytes(geometry.ExportToIsoWkb(ogr.wkbNDR)), known[name]))
        frame = geometry.GetGeometryRef(0).GetEnvelope()
        outcomes.append(equal(name + ", the bytes", blobs[fid], struct.pack("<2s2Bi4d", b"GP", 0, 3, 25832, *frame) + known[name]))
        answers = package.ExecuteSQL("SELECT %s FROM utm WHERE fid = %d" % (ASKED, fid))
        answer = answers.GetNextFeature()
        got = [answer.GetField(k) for k in range(answer.GetFieldCount())]
        package.ReleaseResultSet(answers)
        outcomes.append(equal(name + " by SQL", got, [*frame, 25832, 0, "GEOMETRYCOLLECTION"]))
    return outcomes


def refused(bridge, path):
    """What GDAL writes of an empty geometry, and of one with heights, is refused: 50, 51."""
    write(path, [ogr.CreateGeometryFromWkt(text) for text in ("GEOMETRYCOLLECTION EMPTY", "GEOMETRYCOLLECTION Z (TIN Z (((0 0 1,2 0 1,2 4 1,0 0 1))))")])
    return [equal("strange blobs of " + table, [call(bridge, NUMBERS_BY, BLOB, blob)[0] for blob in blobs_of(path, table)], [50, 51]) for table in TABLES]


def by_ogrinfo(path, rows):
    """The library's blobs are opened by ogrinfo, which prints the same geometry."""
    printed = subprocess.run(["ogrinfo", "-ro", "-q", path, "utm"], check=True, stdout=subprocess.PIPE, stderr=subprocess.DEVNULL, text=True).stdout
    found = {int(fid): text for fid, text in re.findall(r"^OGRFeature\(utm\):(\d+)\n(?:  .* = .*\n)*  (GEOMETRYCOLLECTION .*)$", printed, re.M)}
    known = sheets()
    return [equal(name + " by ogrinfo", bytes(ogr.CreateGeometryFromWkt(found.get(fid, "POINT EMPTY")).ExportToIsoWkb(ogr.wkbNDR)), known[name]) for name, fid in rows.items()]


# Geometries of other kinds than a sheet.
KINDS = ("POINT (1 2)", "LINESTRING (0 0,1 1)", "POLYGON ((0 0,1 0,1 1,0 0))", "MULTIPOLYGON (((0 0,1 0,1 1,0 0)))", "TIN (((0 0,1 0,1 1,0 0)))", "CURVEPOLYGON ((0 0,1 0,1 1,0 0))",
         "GEOMETRYCOLLECTION (POINT (1 2))", "GEOMETRYCOLLECTION EMPTY", "POINT EMPTY", "POINT Z (1 2 3)", "GEOMETRYCOLLECTION Z (TIN Z (((0 0 1,2 0 1,2 4 1,0 0 1))))")


def mixed(path):
    """A GeoPackage by GDAL: a table with an R-tree, whose rows have sheets, other geometries, and none; and a view of it, as GDAL's users add one."""
    package = ogr.GetDriverByName("GPKG").CreateDataSource(path)
    table = package.CreateLayer("mixed", None, ogr.wkbUnknown, ["SPATIAL_INDEX=YES", "FID=number", "GEOMETRY_NAME=the shape"])
    for geometry in [ogr.CreateGeometryFromWkb(sheet) for sheet in sheets().values()] + [ogr.CreateGeometryFromWkt(text) for text in KINDS] + [None]:
        put(table, geometry)
    table = package = None
    with sqlite3.connect(path) as base:
        base.executescript("""CREATE VIEW part AS SELECT number AS OGC_FID, "the shape" AS g FROM mixed WHERE number % 2;
            INSERT INTO gpkg_contents (table_name, identifier, data_type, srs_id) VALUES ('part', 'part', 'features', 0);
            INSERT INTO gpkg_geometry_columns VALUES ('part', 'g', 'GEOMETRY', 0, 0, 0)""")
    package = ogr.Open(path)
    indexed = [name for name, in base.execute("SELECT name FROM sqlite_master")]
    return [equal("an R-tree", "rtree_mixed_the shape" in indexed, True), equal("the view by GDAL", package.GetLayerByName("part").GetFeatureCount() > 5, True)]


def by_both(checker, gate, path, tables):
    """Both programs on a GeoPackage, in the present mode and in the older one: of each row what the independent program says of its blob."""
    with sqlite3.connect(path) as base:
        rows = [("%s/%s/%d" % (path, table, fid), blob or b"") for table, (number, column) in sorted(tables.items())
                for fid, blob in base.execute('SELECT %s, "%s" FROM %s ORDER BY 1' % (number, column, table))]
    outcomes = [equal("enough rows", len(rows) > 10, True)]
    with folder_of({"%06d" % k: blob for k, (_, blob) in enumerate(rows)}) as folder:
        blobs = [os.path.join(os.fsdecode(folder), "%06d" % k) for k in range(len(rows))]
        for mode, words in ((2, []), (3, ["--older"])):
            lines = [line(name, told(verdict)) for (name, _), (verdict, _) in zip(rows, independent.answers(blobs, mode))]
            outcomes += Programs(checker, gate).same(path, [*words, path], lines)
    return outcomes


# The rings of a polygon, by the file that its sheet is in, as GDAL writes them out.
LINES = {
    ("strip", 1): "MULTILINESTRING ((0 0,2 0,4 0,4 4,2 4,0 4,0 0))",
    ("strip", 2): "MULTILINESTRING ((4 0,6 0,8 0,8 4,6 4,4 4,4 0))",
    ("rings of two areas apart", 1): "MULTILINESTRING ((0 0,2 0,2 4,0 4,0 0),(4 0,6 0,6 4,4 4,4 0))",
    ("the ring of a bow-tie", 1): "MULTILINESTRING ((2 2,0 0,4 0,2 2,4 4,0 4,2 2))",
    ("a hole that touches the outer ring", 1): "MULTILINESTRING ((0 0,2 0,4 0,6 0,6 2,6 4,6 6,4 6,2 6,0 6,0 4,0 2,0 0),(2 0,2 2,4 2,2 0))",
    ("no rings of a polygon that owns nothing", 2): "MULTILINESTRING EMPTY",
}


def lines_by_gdal(bridge, cases):
    """GDAL reads what the rings entry writes: a MultiLineString of closed LineStrings with just these points, which it writes as the same bytes."""
    outcomes = []
    for (name, polygon), text in LINES.items():
        code, written = call(bridge, RINGS, 0, contents(os.path.join(cases, name + ".wkb")), polygon)
        lines = ogr.CreateGeometryFromWkb(written)
        outcomes += [equal(name, (code, lines.GetGeometryType(), lines.ExportToWkt()), (0, ogr.wkbMultiLineString, text)),
                     equal(name + ", its bytes", bytes(lines.ExportToIsoWkb(ogr.wkbNDR)), written),
                     equal(name + ", closed", all(line.GetPoint(0) == line.GetPoint(line.GetPointCount() - 1) for line in lines), True)]
    code, written = call(bridge, RINGS, 0, contents(os.path.join(cases, "the ring of a fan of 512 areas.wkb")), 1)
    lines = ogr.CreateGeometryFromWkb(written)
    return outcomes + [equal("a fan", (code, len(written), lines.GetGeometryCount(), lines.GetGeometryRef(0).GetPointCount()), (0, 9 + 9 + 16 * 1537, 1, 1537))]


# Sheets whose polygons are valid after repair, and ones that have a ring which touches itself, or holes that part a polygon.
VALID = ("clean", "strip", "gaps-and-overlaps", "story", "rings of two areas apart", "a hole that touches the outer ring",
         "a gap inside polygon 2, and overlaps with 1 and 3", "a gap round polygon 2 shares 8 with it and 24 with 1", "no rings of a polygon that owns nothing")
TOUCHING = ("the ring of a bow-tie", "the rings of two holes that touch", "the ring of three areas in one corner", "an island that touches the shore in one corner", "an island that touches the shore in two corners")


def repaired_by_gdal(programs, cases):
    """GDAL reads the polygons of repaired sheets: with the areas that the independent program lists after repair, and valid but for those that touch themselves."""
    outcomes = []
    for name in VALID + TOUCHING:
        path = os.path.join(cases, name + ".wkb")
        (verdict, listing), = independent.answers([path])
        more, written = both_repair(programs, name, [path], [line(path, repaired_line(verdict, listing))])
        sheet = ogr.CreateGeometryFromWkb(written)
        polygons = [sheet.GetGeometryRef(k).Clone() for k in range(1, sheet.GetGeometryCount())]
        outcomes += more + [equal(name + " by GDAL", [2 * polygon.GetArea() for polygon in polygons], list(map(float, areas_after(listing)))),
                            equal(name + ", valid", all(polygon.IsValid() for polygon in polygons), name in VALID)]
    return outcomes


def repaired_package(programs, path):
    """A GeoPackage of GDAL's with an R-tree is repaired: GDAL reads the sheets, finds them by their frames, and reads all other rows as they were."""
    def features(of):
        package = ogr.Open(of)
        table = package.GetLayerByName("mixed")
        return {feature.GetFID(): feature.GetGeometryRef() and bytes(feature.GetGeometryRef().ExportToIsoWkb(ogr.wkbNDR)) for feature in table}

    def tree(of):
        with sqlite3.connect(of) as base:
            return base.execute('SELECT * FROM "rtree_mixed_the shape" ORDER BY 1').fetchall()
    with sqlite3.connect(path) as base:
        blobs = [(number, blob or b"") for number, blob in base.execute('SELECT number, "the shape" FROM mixed ORDER BY 1')]
    with folder_of({"%d" % number: blob for number, blob in blobs}) as folder:
        answers = independent.answers([os.path.join(os.fsdecode(folder), "%d" % number) for number, _ in blobs], 2)
    lines = [line("%s/mixed/%d" % (path, number), repaired_line(*answer)) for (number, _), answer in zip(blobs, answers)]
    outcomes, copy = both_repair(programs, "GDAL's file repaired", ["--table", "mixed", path], lines, out="out.gpkg")
    with folder_of({"copy.gpkg": copy}) as folder:
        new = os.path.join(os.fsdecode(folder), "copy.gpkg")
        before, after = features(path), features(new)
        changed = [number for number in before if before[number] != after[number]]
        sheets_ = [number for (number, _), (verdict, _) in zip(blobs, answers) if verdict in ("repair", "clean")]
        package = ogr.Open(new)
        table = package.GetLayerByName("mixed")
        table.SetSpatialFilterRect(9_999_999, 21, 10_000_001, 22)
        outcomes += [equal("rows", list(after), list(before)), equal("the R-tree", tree(new), tree(path)), equal("rows that are no sheets", [k for k in changed if k not in sheets_], []),
                     equal("rows that were repaired", len(changed) > 1, True), equal("by its frame", table.GetFeatureCount(), 1)]
    return outcomes


def main(bridge, checker, gate):
    ogr.UseExceptions()
    gdal.PushErrorHandler("CPLQuietErrorHandler")  # it says that a table with a TIN isn't every program's
    with tempfile.TemporaryDirectory() as folder:
        path = os.path.join(folder, "sheets.gpkg")
        write(path, [ogr.CreateGeometryFromWkb(sheet) for sheet in sheets().values()])
        outcomes = read_and_written(bridge, checker, gate, path) + by_both(checker, gate, path, dict.fromkeys(TABLES, ("fid", "geom")))
        rows = put_by_sqlite(bridge, path)
        outcomes += read_by_others(path, rows) + by_ogrinfo(path, rows) + by_both(checker, gate, path, dict.fromkeys(TABLES, ("fid", "geom")))
        other = os.path.join(folder, "mixed.gpkg")
        outcomes += mixed(other) + by_both(checker, gate, other, {"mixed": ("number", "the shape"), "part": ("OGC_FID", "g")})
        outcomes += repaired_package(Programs(checker, gate), other)
        cases = os.path.join(folder, "cases")
        independent.cases(cases)
        outcomes += lines_by_gdal(bridge, cases) + repaired_by_gdal(Programs(checker, gate), cases)
        return tally(outcomes + refused(bridge, os.path.join(folder, "strange.gpkg")))


if __name__ == "__main__":
    sys.exit(main(*sys.argv[1:]))
