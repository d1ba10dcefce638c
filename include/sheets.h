/* The sheets library: reading, checking, repairing and writing land-use sheets.

   A sheet is a rectangle of ground cut into polygons, one land use each, with a triangulation that another program made. The library reads it
   from the binary form of OGC Simple Features (WKB), checks the triangle table, finds which polygons own each triangle, repairs gaps and
   overlaps, lists boundary sides, joins them into rings, prints a listing, and writes a sheet. It never moves a corner. Every entry is proved
   to do what its description says, for every input.

   How every entry works
     - It takes the bytes of its input, some entries an index besides, and bytes lent for the answer (sheet_at and sheet_ring_room have none): a pointer and a length each. A length of 0
       may come with any pointer, null too. The lent bytes must not overlap the others.
     - It answers one number, item * 256 + code: SHEETS_CODE(answer), SHEETS_ITEM(answer).
     - Code 0 is success: the answer's bytes stand at the front of the lent bytes, and the lent bytes past them keep their values. The item says how
       long the answer is (in bytes, triangles, polygons or sides, as said below), of sheet_at whose the point is, of sheet_ring_room how long that of sheet_rings is.
     - Any other code is a refusal: no lent byte has changed.
     - It always returns, reads only the input, writes only lent bytes, and allocates nothing. It keeps no state, so any number of threads may call any
       entries at once. A thread that calls needs 640 KiB of free stack, SHEETS_STACK.

   The codes are those of refusals.def, beside this file: what each item is, and a sentence for each. The item of codes 1 to 6 and 8 is a member, the place in
   the sheet, the table being 1 and 0 the sheet's own header. Triangles and polygons are numbered from 1, in order. Below, an entry's refusals stand in the
   order in which they are looked for. "1 to 8" is one stage: the sheet is read field by field to the first fault. At each field 1 comes first; then at a byte
   order 2, at a type 3 and then 8, at a count 4 (at the type of a 65th polygon, too), at a point 5, at the last point of a ring 6 after that; 7 comes last, once
   the whole sheet is read. "20/21" is one stage: polygons are judged in number order, and the first that is refused has 20 if no set of triangles carries
   it, 21 if it has no ground, that is, if all its lines cancel. sheets.hpp has the entries for C++ with ordinary types. */
#ifndef SHEETS_H
#define SHEETS_H

#include <stddef.h>
#include <stdint.h>

#ifdef __cplusplus
extern "C" {
#endif

/* The version of the library, its headers, the Rust crate and the programs. */
#define SHEETS_VERSION "0.1.0"

#define SHEETS_CODE(answer) ((unsigned)(uint8_t)(answer))
#define SHEETS_ITEM(answer) ((uint64_t)(answer) >> 8)

/* Room that is always enough for the answer. */
#define SHEETS_NUMBERS_ROOM 65800
#define SHEETS_WRITE_ROOM 158290
#define SHEETS_OWNER_SETS_ROOM 8192
#define SHEETS_OWNERS_ROOM 1024
#define SHEETS_BOUNDARY_ROOM 49152
#define SHEETS_LISTING_ROOM 6600
#define SHEETS_POSITION_ROOM 16
#define SHEETS_BLOB_NUMBERS_ROOM 65804
#define SHEETS_WRITE_BLOB_ROOM 158330
#define SHEETS_AREAS_ROOM 512
#define SHEETS_INDEX_ROOM 6144
#define SHEETS_RINGS_ROOM 74761

/* What the entries whose names end in _by or _indexed are asked by, sheet_position, sheet_areas, sheet_index, sheet_rings, sheet_ring_room and sheet_at: the mode,
   how the sheet is read, and the way, how gaps are filled. */
#define SHEETS_MODE_PRESENT 0
#define SHEETS_MODE_OLDER 1
#define SHEETS_MODE_BLOB 2
#define SHEETS_MODE_OLDER_BLOB 3
#define SHEETS_WAY_PRIORITY 0
#define SHEETS_WAY_LONGEST 1

/* Free stack that a calling thread needs, in bytes. */
#define SHEETS_STACK 655360

/* So many bytes of a file are always enough to read the sheet in it: what an entry answers on the first so many of longer ones is what it answers on
   all. The longest sheet has 185,938 bytes, and no input is looked at beyond 185,978 before it is refused, a blob's 40 bytes more each; docs/DECISIONS.md
   has the reckoning. */
#define SHEETS_READ_CAP 196608

/* The sheet in numbers, as little-endian int32: the triangle count and six numbers for each triangle; the polygon count, and for each polygon the
   count of its parts, for each part the count of its rings, for each ring the count of its points and two numbers for each point, the closing
   point included. Item: bytes. Refusals: 1 to 8, 40. */
uint64_t sheet_numbers(const uint8_t *sheet, size_t sheet_len, uint8_t *out, size_t out_len);

/* The bytes of the sheet that the numbers make up, in one normal form: little-endian, a Polygon for a member with one part, else a MultiPolygon.
   Reading them gives the same numbers back. Item: bytes. Refusals: 42, 40. */
uint64_t sheet_write(const uint8_t *numbers, size_t numbers_len, uint8_t *out, size_t out_len);

/* The owners of each triangle before repair, in table order: a little-endian uint64 each, whose bit k-1 stands for polygon k. No bit: a gap; more
   than one: an overlap. Item: triangles. Refusals: 1 to 8, 10, 11, 12, 20/21, 40. */
uint64_t sheet_owner_sets(const uint8_t *sheet, size_t sheet_len, uint8_t *out, size_t out_len);

/* The number of the one polygon that owns each triangle after repair, in table order, one byte each. Item: triangles. Refusals: 1 to 8, 10, 11, 12,
   20/21, 30 (the sheet has no polygons), 40. */
uint64_t sheet_owners(const uint8_t *sheet, size_t sheet_len, uint8_t *out, size_t out_len);

/* The boundary sides of a polygon after repair: each side from u to v of its triangles whose reverse is no side of those, as ux, uy, vx, vy in
   little-endian int32, by triangle and then ab, bc, ca. A polygon that owns nothing after repair, since all its ground
   went to others, has none. Item: sides. Refusals: 1 to 8, 10, 11, 12, 20/21, 41, 30 (never, since a polygon of the sheet has ground), 40. */
uint64_t sheet_boundary(const uint8_t *sheet, size_t sheet_len, uint32_t polygon, uint8_t *out, size_t out_len);

/* The printed listing as ASCII text: the sheet, its polygons with their double areas in square millimetres, gaps, overlaps, the verdict, what each
   polygon owns after repair. A refused sheet has a listing too: `refused` code item. Item: bytes. Refusal: 40. */
uint64_t sheet_listing(const uint8_t *sheet, size_t sheet_len, uint8_t *out, size_t out_len);

/* Where in the bytes reading stops: the answer that sheet_numbers_by gives in this mode with room enough, item * 256 + code, and the position of the field at fault,
   counted in bytes from 0, as two little-endian uint64. The position is 0 for any answer but the refusals 1 to 8, which the other entries that take a
   sheet give alike. It is that of the field's first byte: for 1 of the field that is cut short, a point being one field, which may be sheet_len; for 2
   of the byte order, for 3 and 8 of the type, for 4 of the count, or of the type of the 65th polygon under a member; for 5 of the double, x before y;
   for 6 of the ring's last point; for 7 of what follows the sheet. In a blob it is counted from the blob's first byte. It doesn't depend on the edition; for a
   mode that isn't known the answer told is 57. Item: 16, the bytes. Refusal: 40. */
uint64_t sheet_position(const uint8_t *sheet, size_t sheet_len, uint32_t mode, uint8_t *out, size_t out_len);

/* The entries above that take a sheet, by a mode and a way. Items and rooms are those of the entries without _by, which are the ones in
   SHEETS_MODE_PRESENT and SHEETS_WAY_PRIORITY.

   SHEETS_MODE_OLDER is for sheets of the older edition, whose programs left rings in either direction. The sheet is read as in the present mode, with the
   same refusals; then the first ring of each part of each polygon is turned round if its double area is negative, every later one if its own is positive. A
   ring that is turned has its points in reverse order; one of double area 0 stays, and so do the triangles. All that follows is about the rings so turned.
   What sheet_write makes of these numbers is read as the same numbers in either mode.

   SHEETS_MODE_BLOB is for sheets in the geometry blobs of GeoPackage tables (OGC 12-128), SHEETS_MODE_OLDER_BLOB for those of the older edition: before the sheet
   stands a header of `GP`, version 0, a flags byte, a reference-system number and perhaps an envelope, the least and the greatest x and then y as doubles. It is
   looked at field by field, with 1 where one is cut short, 50 for other letters, another version, and flags of empty, extended or reserved geometries, and 51,
   at the flags, for an envelope kind above 1. These come before the sheet is read. The envelope must be the table's frame as numbers, else 52: right
   after 12, and in sheet_numbers_by and sheet_areas right after reading. In these modes "1 to 8" below is "50, 51, 1 to 8", and the numbers of sheet_numbers_by have the
   reference-system number before them: SHEETS_BLOB_NUMBERS_ROOM.

   SHEETS_WAY_PRIORITY gives each gap region to the largest number across its sides, SHEETS_WAY_LONGEST to the number that it shares the greatest length with: the
   lengths of the region's sides that have this number across, added up, where a side is as long as the largest whole number whose square is at most dx*dx + dy*dy. On
   equal lengths the larger number.

   Any other mode is refused 57, before everything else, and any other way 54, right before 30. In the listing 57 is the only line, and 54 stands in the place
   of the lines `after`, as 30 does. */

/* sheet_numbers in a mode. Refusals: 57, 1 to 8, 52, 40. */
uint64_t sheet_numbers_by(const uint8_t *sheet, size_t sheet_len, uint32_t mode, uint8_t *out, size_t out_len);

/* The double area of each polygon, in number order, as a little-endian int64 in square millimetres: the sum over the edges from p to q of all its rings, as
   turned in the mode, of px * qy - qx * py. It is worked out from the corners alone, whether or not the table keeps the rules and a set of triangles carries the
   polygon; it is negative where clockwise rings prevail. Of a polygon that is carried it is the sum of its triangles' double areas, and stands in the listing.
   Item: polygons. Refusals: 57, 1 to 8, 52, 40. */
uint64_t sheet_areas(const uint8_t *sheet, size_t sheet_len, uint32_t mode, uint8_t *out, size_t out_len);

/* sheet_owner_sets in a mode. Refusals: 57, 1 to 8, 10, 11, 12, 52, 20/21, 40. */
uint64_t sheet_owner_sets_by(const uint8_t *sheet, size_t sheet_len, uint32_t mode, uint8_t *out, size_t out_len);

/* sheet_owners in a mode and a way. Refusals: 57, 1 to 8, 10, 11, 12, 52, 20/21, 54, 30, 40. */
uint64_t sheet_owners_by(const uint8_t *sheet, size_t sheet_len, uint32_t mode, uint32_t way, uint8_t *out, size_t out_len);

/* sheet_boundary in a mode and a way. Refusals: 57, 1 to 8, 10, 11, 12, 52, 20/21, 41, 54, 30 (never), 40. */
uint64_t sheet_boundary_by(const uint8_t *sheet, size_t sheet_len, uint32_t mode, uint32_t way, uint32_t polygon, uint8_t *out, size_t out_len);

/* The boundary sides of a polygon after repair, in a mode and a way, joined into closed rings: a WKB MultiLineString (type 5) of LineStrings (type 2), little-endian,
   each with the point at which its first side begins and then the point at which each side ends, the first point again at last. Each side that sheet_boundary_by
   lists is in exactly one ring, once. Where several leave the corner at which a side ends, the sharpest turn to the right follows, measured from that side; so areas
   that touch in a corner make one ring. A ring begins at the earliest of its sides in the order of sheet_boundary_by, and rings stand in the order of their first
   sides. Corners in which a ring goes straight on stay. A polygon that owns nothing after repair has 0 rings, in 9 bytes. Item: bytes, 9 and 16 for each side and 25
   for each ring. Refusals: 57, 1 to 8, 10, 11, 12, 52, 20/21, 41, 54, 30 (never), 40. */
uint64_t sheet_rings(const uint8_t *sheet, size_t sheet_len, uint32_t mode, uint32_t way, uint32_t polygon, uint8_t *out, size_t out_len);

/* sheet_listing in a mode and a way. Refusal: 40. */
uint64_t sheet_listing_by(const uint8_t *sheet, size_t sheet_len, uint32_t mode, uint32_t way, uint8_t *out, size_t out_len);

/* The blob that the numbers make up: the reference-system number first, any int32, then the numbers of the sheet. Its header is little-endian and has the frame
   of the table as its envelope, whether or not the table keeps the rules; the sheet is as sheet_write makes it. Reading it in SHEETS_MODE_BLOB gives the same
   numbers back. Item: bytes. Refusals: 42, 40. */
uint64_t sheet_write_blob(const uint8_t *numbers, size_t numbers_len, uint8_t *out, size_t out_len);

/* The index of a sheet's table, to be kept beside the sheet and lent to the entries below: for each triangle and side, by triangle and then ab, bc, ca, the number of
   the triangle with the reversed side as a little-endian uint16, 0 for none. It is built once the table has passed the rules and the envelope. Item: bytes, 6 for each
   triangle. Refusals: 57, 1 to 8, 10, 11, 12, 52, 40. */
uint64_t sheet_index(const uint8_t *sheet, size_t sheet_len, uint32_t mode, uint8_t *out, size_t out_len);

/* sheet_owner_sets_by, sheet_owners_by, sheet_boundary_by and sheet_rings with an index. One that differs from the table's own in length or content, an empty one
   too, is refused 53, right before 20/21; with the table's own the answers are those without one. Where sheet_index refuses the sheet they give the same refusal,
   whatever is lent. Refusals: 57, 1 to 8, 10, 11, 12, 52, 53, and then as without an index. */
uint64_t sheet_owner_sets_indexed(const uint8_t *sheet, size_t sheet_len, const uint8_t *index, size_t index_len, uint32_t mode, uint8_t *out, size_t out_len);
uint64_t sheet_owners_indexed(const uint8_t *sheet, size_t sheet_len, const uint8_t *index, size_t index_len, uint32_t mode, uint32_t way, uint8_t *out,
                              size_t out_len);
uint64_t sheet_boundary_indexed(const uint8_t *sheet, size_t sheet_len, const uint8_t *index, size_t index_len, uint32_t mode, uint32_t way, uint32_t polygon,
                                uint8_t *out, size_t out_len);
uint64_t sheet_rings_indexed(const uint8_t *sheet, size_t sheet_len, const uint8_t *index, size_t index_len, uint32_t mode, uint32_t way, uint32_t polygon,
                             uint8_t *out, size_t out_len);

/* How many bytes sheet_rings writes for the same sheet, mode, way and polygon, as the item: 9, 16 for each boundary side and 25 for each ring. Lent so many bytes or more
   it is not refused 40, and lent fewer it is. Since a ring has three sides or more, the item is at most 9 + 16 * S + 25 * (S / 3) for the S sides that
   sheet_boundary_by counts, S / 3 rounded down, so a buffer of this length is always enough, too; SHEETS_RINGS_ROOM is this for 3,072 sides, the most there are.
   No bytes are lent. Refusals: 57, 1 to 8, 10, 11, 12, 52, 20/21, 41, 54, 30 (never). */
uint64_t sheet_ring_room(const uint8_t *sheet, size_t sheet_len, uint32_t mode, uint32_t way, uint32_t polygon);

/* What is at the point (x, y), in millimetres, any two numbers: the number of the polygon that owns it after repair in the way, as the item. A point belongs to a
   triangle if, for each side, it is strictly to the left, or lies on the line of a side that runs downward, or on that of a side that runs level to the right. Every
   point from the frame's least x and y up to but not including the greatest belongs to exactly one triangle, and any other to none, which is 55. No bytes are lent.
   Refusals: 57, 1 to 8, 10, 11, 12, 52, 20/21, 54, 30, 55. */
uint64_t sheet_at(const uint8_t *sheet, size_t sheet_len, uint32_t mode, uint32_t way, int32_t x, int32_t y);

#ifdef __cplusplus
}
#endif

#endif
