// The entries of sheets.h as C++17 functions over ordinary types: the room for an answer is inside, and an empty input may come with any pointer.
// The Rust crate has the same functions. Any number of threads may call them at once; a call needs 640 KiB of free stack.
#ifndef SHEETS_HPP
#define SHEETS_HPP

#include "sheets.h"

#include <cstddef>
#include <cstdint>
#include <stdexcept>
#include <string>
#include <utility>
#include <vector>

namespace sheets {

using Bytes = std::vector<std::uint8_t>;

// Why a call was refused: a code of refusals.def, and the member, triangle or polygon that it is about, 0 for none. Code 0: it was not.
struct Refusal {
    unsigned code = 0;
    std::uint64_t item = 0;
};

// What a call answers: a value where it succeeded, else a refusal.
template <class T>
struct Answer {
    Refusal refusal;
    T value;
    explicit operator bool() const { return refusal.code == 0; }
};

// A side from u to v, in millimetres.
struct Side {
    std::int32_t ux, uy, vx, vy;
};

// How a sheet is read: as it stands, or as one of the older edition, whose rings are turned; each from its own bytes, or from a GeoPackage's blob.
enum class Mode : std::uint32_t {
    Present = SHEETS_MODE_PRESENT,
    Older = SHEETS_MODE_OLDER,
    Blob = SHEETS_MODE_BLOB,
    OlderBlob = SHEETS_MODE_OLDER_BLOB,
};

// How gaps are filled: each goes to the largest number beside it, or to the one that it shares the longest boundary with.
enum class Way : std::uint32_t { Priority = SHEETS_WAY_PRIORITY, Longest = SHEETS_WAY_LONGEST };

// What reading comes to: the length of the numbers form in bytes, or a refusal, and for a refusal the position of the field at fault, counted in bytes from 0.
// It is 0 where the sheet is read.
struct Position {
    Answer<std::uint64_t> answer;
    std::uint64_t byte;
};

// What a sheet is found to be: every triangle has exactly one owner; there are gaps or overlaps; or it was refused before repair.
enum class Finding { Clean, Repair, Refused };

struct Verdict {
    Finding finding;
    Refusal refusal;
};

// What the functions below share.
namespace inside {

// What the item of a refusal is.
enum Item { NONE, MEMBER, TRIANGLE, POLYGON };

struct Line {
    unsigned code;
    Item item;
    const char *sentence;
};

constexpr Line lines[] = {
#define SHEETS_REFUSAL(code, item, sentence) {code, item, sentence},
#include "refusals.def"
#undef SHEETS_REFUSAL
};

// The item of a refusal in words.
inline std::string named(Item item, std::uint64_t number) {
    std::string digits = std::to_string(number);
    if (item == TRIANGLE) return "triangle " + digits;
    if (item == POLYGON) return "polygon " + digits;
    if (number == 0) return "the sheet's own header";
    return number == 1 ? "member 1, the triangle table" : "member " + digits;
}

// What an entry is handed for an empty input is never the caller's pointer.
inline const std::uint8_t *given(const std::uint8_t *bytes, std::size_t size) {
    static const std::uint8_t none = 0;
    return size == 0 ? &none : bytes;
}

// What a packed answer says: its item, or a refusal.
inline Answer<std::uint64_t> unpacked(std::uint64_t answer) {
    if (SHEETS_CODE(answer) != 0) return {{SHEETS_CODE(answer), SHEETS_ITEM(answer)}, 0};
    return {{}, SHEETS_ITEM(answer)};
}

// The answer of an entry, which has `size` bytes for each one that its item counts.
template <class Entry>
Answer<Bytes> call(std::size_t room, std::size_t size, Entry entry) {
    Bytes lent(room);
    const Answer<std::uint64_t> answer = unpacked(entry(lent.data(), lent.size()));
    if (!answer) return {answer.refusal, {}};
    lent.resize(size * static_cast<std::size_t>(answer.value));
    return {{}, std::move(lent)};
}

// The number that little-endian bytes stand for.
template <class Number>
Number little(const std::uint8_t *bytes) {
    std::uint64_t number = 0;
    for (std::size_t k = 0; k < sizeof(Number); k++) number |= static_cast<std::uint64_t>(bytes[k]) << 8 * k;
    return static_cast<Number>(number);
}

// The numbers that little-endian bytes stand for, one after the other.
template <class Number>
std::vector<Number> numbers_of(const Bytes &bytes) {
    std::vector<Number> numbers;
    for (std::size_t at = 0; at < bytes.size(); at += sizeof(Number)) numbers.push_back(little<Number>(&bytes[at]));
    return numbers;
}

// The number of a mode or of a way.
template <class Choice>
std::uint32_t number(Choice choice) {
    return static_cast<std::uint32_t>(choice);
}

// The little-endian bytes of numbers.
inline Bytes bytes_of(const std::vector<std::int32_t> &numbers) {
    Bytes bytes;
    for (std::int32_t number : numbers)
        for (int k = 0; k < 4; k++) bytes.push_back(static_cast<std::uint8_t>(static_cast<std::uint32_t>(number) >> 8 * k));
    return bytes;
}

// What an entry answers in ordinary types.
template <class Entry>
Answer<std::vector<std::int32_t>> numbers(std::size_t room, Entry entry) {
    Answer<Bytes> answer = call(room, 1, entry);
    return {answer.refusal, numbers_of<std::int32_t>(answer.value)};
}

template <class Entry>
Answer<std::vector<std::uint64_t>> owner_sets(Entry entry) {
    Answer<Bytes> answer = call(SHEETS_OWNER_SETS_ROOM, 8, entry);
    return {answer.refusal, numbers_of<std::uint64_t>(answer.value)};
}

template <class Entry>
Answer<Bytes> owners(Entry entry) {
    return call(SHEETS_OWNERS_ROOM, 1, entry);
}

template <class Entry>
Answer<std::vector<Side>> boundary(Entry entry) {
    Answer<Bytes> answer = call(SHEETS_BOUNDARY_ROOM, 16, entry);
    std::vector<std::int32_t> numbers = numbers_of<std::int32_t>(answer.value);
    std::vector<Side> sides;
    for (std::size_t at = 0; at < numbers.size(); at += 4) sides.push_back({numbers[at], numbers[at + 1], numbers[at + 2], numbers[at + 3]});
    return {answer.refusal, sides};
}

template <class Entry>
Answer<Bytes> rings(Entry entry) {
    return call(SHEETS_RINGS_ROOM, 1, entry);
}

template <class Entry>
std::string listing(Entry entry) {
    Answer<Bytes> answer = call(SHEETS_LISTING_ROOM, 1, entry);
    if (!answer) throw std::logic_error("the room is enough for every listing");
    return std::string(answer.value.begin(), answer.value.end());
}

// The verdict that owner sets come to.
inline Verdict verdict(const Answer<std::vector<std::uint64_t>> &sets) {
    if (!sets) return {Finding::Refused, sets.refusal};
    for (std::uint64_t set : sets.value)
        if (set == 0 || (set & (set - 1)) != 0) return {Finding::Repair, {}};
    return {Finding::Clean, {}};
}

}  // namespace inside

// The refusal in words.
inline std::string sentence(Refusal refusal) {
    for (const inside::Line &line : inside::lines) {
        if (line.code != refusal.code) continue;
        std::string text = line.sentence;
        std::size_t place = text.find("{}");
        return place == std::string::npos ? text : text.replace(place, 2, inside::named(line.item, refusal.item));
    }
    return "the library has no refusal " + std::to_string(refusal.code);
}

// The sheet in numbers: the triangle count and six numbers each, the polygon count, then for each its parts, rings and points, every count before what it
// counts, rings closed.
inline Answer<std::vector<std::int32_t>> numbers(const std::uint8_t *sheet, std::size_t size) {
    return inside::numbers(SHEETS_NUMBERS_ROOM,
                           [&](std::uint8_t *lent, std::size_t room) { return sheet_numbers(inside::given(sheet, size), size, lent, room); });
}

// The bytes of the sheet that the numbers make up, in one normal form.
inline Answer<Bytes> write(const std::vector<std::int32_t> &numbers) {
    const Bytes given = inside::bytes_of(numbers);
    return inside::call(SHEETS_WRITE_ROOM, 1,
                        [&](std::uint8_t *lent, std::size_t room) { return sheet_write(inside::given(given.data(), given.size()), given.size(), lent, room); });
}

// The blob that the numbers make up, the reference-system number before those of the sheet.
inline Answer<Bytes> write_blob(const std::vector<std::int32_t> &numbers) {
    const Bytes given = inside::bytes_of(numbers);
    return inside::call(SHEETS_WRITE_BLOB_ROOM, 1, [&](std::uint8_t *lent, std::size_t room) {
        return sheet_write_blob(inside::given(given.data(), given.size()), given.size(), lent, room);
    });
}

// The owners of each triangle before repair: bit k - 1 stands for polygon k.
inline Answer<std::vector<std::uint64_t>> owner_sets(const std::uint8_t *sheet, std::size_t size) {
    return inside::owner_sets([&](std::uint8_t *lent, std::size_t room) { return sheet_owner_sets(inside::given(sheet, size), size, lent, room); });
}

// The number of each triangle after repair.
inline Answer<Bytes> owners(const std::uint8_t *sheet, std::size_t size) {
    return inside::owners([&](std::uint8_t *lent, std::size_t room) { return sheet_owners(inside::given(sheet, size), size, lent, room); });
}

// The boundary sides of a polygon after repair.
inline Answer<std::vector<Side>> boundary(const std::uint8_t *sheet, std::size_t size, std::uint32_t polygon) {
    return inside::boundary([&](std::uint8_t *lent, std::size_t room) { return sheet_boundary(inside::given(sheet, size), size, polygon, lent, room); });
}

// The printed listing; a refused sheet has one, too.
inline std::string listing(const std::uint8_t *sheet, std::size_t size) {
    return inside::listing([&](std::uint8_t *lent, std::size_t room) { return sheet_listing(inside::given(sheet, size), size, lent, room); });
}

// Where in its bytes a sheet can't be read, in a mode, and in the present one.
inline Position position_by(const std::uint8_t *sheet, std::size_t size, Mode mode) {
    Answer<Bytes> answer = inside::call(SHEETS_POSITION_ROOM, 1, [&](std::uint8_t *lent, std::size_t room) {
        return sheet_position(inside::given(sheet, size), size, inside::number(mode), lent, room);
    });
    if (!answer) throw std::logic_error("the room is enough for every position");
    return {inside::unpacked(inside::little<std::uint64_t>(&answer.value[0])), inside::little<std::uint64_t>(&answer.value[8])};
}

inline Position position(const std::uint8_t *sheet, std::size_t size) { return position_by(sheet, size, Mode::Present); }

// The double area of each polygon, from its corners alone, in a mode, and in the present one.
inline Answer<std::vector<std::int64_t>> areas_by(const std::uint8_t *sheet, std::size_t size, Mode mode) {
    Answer<Bytes> answer = inside::call(SHEETS_AREAS_ROOM, 8, [&](std::uint8_t *lent, std::size_t room) {
        return sheet_areas(inside::given(sheet, size), size, inside::number(mode), lent, room);
    });
    return {answer.refusal, inside::numbers_of<std::int64_t>(answer.value)};
}

inline Answer<std::vector<std::int64_t>> areas(const std::uint8_t *sheet, std::size_t size) { return areas_by(sheet, size, Mode::Present); }

// Is it a refusal of reading, whose position can be asked for?
inline bool of_reading(Refusal refusal) { return refusal.code >= 1 && refusal.code <= 8; }

// The verdict on a sheet.
inline Verdict verdict(const std::uint8_t *sheet, std::size_t size) { return inside::verdict(owner_sets(sheet, size)); }

// The same in a mode and a way; those above are in the present mode and by priority. The first number of a blob is its reference-system number.
inline Answer<std::vector<std::int32_t>> numbers_by(const std::uint8_t *sheet, std::size_t size, Mode mode) {
    return inside::numbers(SHEETS_BLOB_NUMBERS_ROOM, [&](std::uint8_t *lent, std::size_t room) {
        return sheet_numbers_by(inside::given(sheet, size), size, inside::number(mode), lent, room);
    });
}

inline Answer<std::vector<std::uint64_t>> owner_sets_by(const std::uint8_t *sheet, std::size_t size, Mode mode) {
    return inside::owner_sets(
        [&](std::uint8_t *lent, std::size_t room) { return sheet_owner_sets_by(inside::given(sheet, size), size, inside::number(mode), lent, room); });
}

inline Answer<Bytes> owners_by(const std::uint8_t *sheet, std::size_t size, Mode mode, Way way) {
    return inside::owners([&](std::uint8_t *lent, std::size_t room) {
        return sheet_owners_by(inside::given(sheet, size), size, inside::number(mode), inside::number(way), lent, room);
    });
}

inline Answer<std::vector<Side>> boundary_by(const std::uint8_t *sheet, std::size_t size, Mode mode, Way way, std::uint32_t polygon) {
    return inside::boundary([&](std::uint8_t *lent, std::size_t room) {
        return sheet_boundary_by(inside::given(sheet, size), size, inside::number(mode), inside::number(way), polygon, lent, room);
    });
}

// The boundary sides of a polygon after repair joined into closed rings, as a WKB MultiLineString, in a mode and a way, and in the present one by priority.
inline Answer<Bytes> rings_by(const std::uint8_t *sheet, std::size_t size, Mode mode, Way way, std::uint32_t polygon) {
    return inside::rings([&](std::uint8_t *lent, std::size_t room) {
        return sheet_rings(inside::given(sheet, size), size, inside::number(mode), inside::number(way), polygon, lent, room);
    });
}

inline Answer<Bytes> rings(const std::uint8_t *sheet, std::size_t size, std::uint32_t polygon) {
    return rings_by(sheet, size, Mode::Present, Way::Priority, polygon);
}

// How many bytes the rings of a polygon have, for who lends them to sheet_rings, in a mode and a way, and in the present one by priority. It takes as long as finding
// the rings does.
inline Answer<std::size_t> ring_room_by(const std::uint8_t *sheet, std::size_t size, Mode mode, Way way, std::uint32_t polygon) {
    const Answer<std::uint64_t> answer =
        inside::unpacked(sheet_ring_room(inside::given(sheet, size), size, inside::number(mode), inside::number(way), polygon));
    return {answer.refusal, static_cast<std::size_t>(answer.value)};
}

inline Answer<std::size_t> ring_room(const std::uint8_t *sheet, std::size_t size, std::uint32_t polygon) {
    return ring_room_by(sheet, size, Mode::Present, Way::Priority, polygon);
}

inline std::string listing_by(const std::uint8_t *sheet, std::size_t size, Mode mode, Way way) {
    return inside::listing([&](std::uint8_t *lent, std::size_t room) {
        return sheet_listing_by(inside::given(sheet, size), size, inside::number(mode), inside::number(way), lent, room);
    });
}

// The index of a sheet's table, to be kept beside the sheet and lent to the functions below, in a mode, and in the present one.
inline Answer<Bytes> index_by(const std::uint8_t *sheet, std::size_t size, Mode mode) {
    return inside::call(SHEETS_INDEX_ROOM, 1,
                        [&](std::uint8_t *lent, std::size_t room) { return sheet_index(inside::given(sheet, size), size, inside::number(mode), lent, room); });
}

inline Answer<Bytes> index(const std::uint8_t *sheet, std::size_t size) { return index_by(sheet, size, Mode::Present); }

// The same with an index, which is refused 53 where it isn't the one of the sheet's table.
inline Answer<std::vector<std::uint64_t>> owner_sets_indexed(const std::uint8_t *sheet, std::size_t size, const Bytes &index, Mode mode) {
    return inside::owner_sets([&](std::uint8_t *lent, std::size_t room) {
        return sheet_owner_sets_indexed(inside::given(sheet, size), size, inside::given(index.data(), index.size()), index.size(), inside::number(mode), lent,
                                        room);
    });
}

inline Answer<Bytes> owners_indexed(const std::uint8_t *sheet, std::size_t size, const Bytes &index, Mode mode, Way way) {
    return inside::owners([&](std::uint8_t *lent, std::size_t room) {
        return sheet_owners_indexed(inside::given(sheet, size), size, inside::given(index.data(), index.size()), index.size(), inside::number(mode),
                                    inside::number(way), lent, room);
    });
}

inline Answer<std::vector<Side>> boundary_indexed(const std::uint8_t *sheet, std::size_t size, const Bytes &index, Mode mode, Way way, std::uint32_t polygon) {
    return inside::boundary([&](std::uint8_t *lent, std::size_t room) {
        return sheet_boundary_indexed(inside::given(sheet, size), size, inside::given(index.data(), index.size()), index.size(), inside::number(mode),
                                      inside::number(way), polygon, lent, room);
    });
}

inline Answer<Bytes> rings_indexed(const std::uint8_t *sheet, std::size_t size, const Bytes &index, Mode mode, Way way, std::uint32_t polygon) {
    return inside::rings([&](std::uint8_t *lent, std::size_t room) {
        return sheet_rings_indexed(inside::given(sheet, size), size, inside::given(index.data(), index.size()), index.size(), inside::number(mode),
                                   inside::number(way), polygon, lent, room);
    });
}

inline Verdict verdict_by(const std::uint8_t *sheet, std::size_t size, Mode mode) { return inside::verdict(owner_sets_by(sheet, size, mode)); }

// What is at the point (x, y): the number of the polygon that owns it after repair, in a mode and a way, and in the present one by priority. 55 for a point that
// belongs to no triangle: one off the frame, whose greatest x and y are off it.
inline Answer<std::uint32_t> at_by(const std::uint8_t *sheet, std::size_t size, Mode mode, Way way, std::int32_t x, std::int32_t y) {
    const Answer<std::uint64_t> answer = inside::unpacked(sheet_at(inside::given(sheet, size), size, inside::number(mode), inside::number(way), x, y));
    return {answer.refusal, static_cast<std::uint32_t>(answer.value)};
}

inline Answer<std::uint32_t> at(const std::uint8_t *sheet, std::size_t size, std::int32_t x, std::int32_t y) {
    return at_by(sheet, size, Mode::Present, Way::Priority, x, y);
}

}  // namespace sheets

#endif
