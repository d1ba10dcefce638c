// Repaired sheets: rings become parts and holes, in whole numbers throughout.
#include "repair.hpp"

#include <algorithm>
#include <cstring>
#include <optional>
#include <stdexcept>

namespace repair {

namespace {

using sheets::Bytes;
using sheets::Mode;

// How many parts a polygon has at most, and how many rings a part.
constexpr std::size_t most = 64;

struct Point {
    std::int64_t x, y;
};

// A closed ring, its first point again at last.
using Ring = std::vector<Point>;
// The outer ring, and the holes behind it.
using Part = std::vector<Ring>;

// Twice the area of the triangle by three points; above 0 where it runs anticlockwise.
std::int64_t double_area(Point a, Point b, Point c) { return (b.x - a.x) * (c.y - a.y) - (c.x - a.x) * (b.y - a.y); }

std::int64_t double_area(const Ring &ring) {
    std::int64_t sum = 0;
    for (std::size_t k = 1; k < ring.size(); k++) sum += double_area(ring[0], ring[k - 1], ring[k]);
    return sum;
}

// How often a ring winds round a point of the grid with half the step, by its coordinates doubled; the point is on no edge of it.
int winding(const Ring &ring, Point doubled) {
    int times = 0;
    for (std::size_t k = 1; k < ring.size(); k++) {
        const Point p = {2 * ring[k - 1].x, 2 * ring[k - 1].y}, q = {2 * ring[k].x, 2 * ring[k].y};
        const std::int64_t turn = double_area(p, q, doubled);
        if (p.y <= doubled.y && q.y > doubled.y && turn > 0) times++;
        if (p.y > doubled.y && q.y <= doubled.y && turn < 0) times--;
    }
    return times;
}

// Does an outer ring hold another ring? No two have a piece of a side in common, so the middle of the other's first side is on none of its sides.
bool holds(const Ring &outer, const Ring &ring) { return winding(outer, {ring[0].x + ring[1].x, ring[0].y + ring[1].y}) > 0; }

std::int64_t coordinate(const std::uint8_t *bytes) {
    const auto bits = sheets::inside::little<std::uint64_t>(bytes);
    double number = 0;
    std::memcpy(&number, &bits, sizeof number);
    return static_cast<std::int64_t>(number);
}

// The lines of a MultiLineString as the library writes it.
std::vector<Ring> rings_of(const Bytes &lines) {
    std::vector<Ring> rings(sheets::inside::little<std::uint32_t>(&lines[5]));
    std::size_t at = 9;
    for (Ring &ring : rings) {
        ring.resize(sheets::inside::little<std::uint32_t>(&lines[at + 5]));
        at += 9;
        for (Point &point : ring) {
            point = {coordinate(&lines[at]), coordinate(&lines[at + 8])};
            at += 16;
        }
    }
    return rings;
}

// The place of the smallest of the parts whose outer ring holds a hole.
std::size_t holder(const std::vector<Part> &parts, const Ring &hole) {
    std::optional<std::size_t> found;
    for (std::size_t k = 0; k < parts.size(); k++)
        if (holds(parts[k][0], hole) && (!found || double_area(parts[k][0]) < double_area(parts[*found][0]))) found = k;
    if (!found) throw std::logic_error("a hole in no ring");
    return *found;
}

// The parts that rings make up: each ring that runs anticlockwise opens one, and each other is a hole of one.
std::vector<Part> parts_of(const std::vector<Ring> &rings) {
    std::vector<Part> parts;
    for (const Ring &ring : rings)
        if (double_area(ring) > 0) parts.push_back({ring});
    for (const Ring &ring : rings)
        if (double_area(ring) < 0) parts[holder(parts, ring)].push_back(ring);
    return parts;
}

// Why a polygon of these parts can't be in a sheet; nothing where it can.
std::string over(std::uint32_t polygon, const std::vector<Part> &parts) {
    const std::string named = "polygon " + std::to_string(polygon) + " has ", limit = std::to_string(most) + " at most";
    if (parts.size() > most) return named + std::to_string(parts.size()) + " parts after repair, and a polygon has " + limit;
    for (const Part &part : parts)
        if (part.size() > most) return named + "a part of " + std::to_string(part.size()) + " rings after repair, and a part has " + limit;
    return "";
}

using Numbers = std::vector<std::int32_t>;

void put(Numbers &numbers, std::size_t count) { numbers.push_back(static_cast<std::int32_t>(count)); }

void put(Numbers &numbers, const std::vector<Part> &parts) {
    put(numbers, parts.size());
    for (const Part &part : parts) {
        put(numbers, part.size());
        for (const Ring &ring : part) {
            put(numbers, ring.size());
            for (Point point : ring) {
                numbers.push_back(static_cast<std::int32_t>(point.x));
                numbers.push_back(static_cast<std::int32_t>(point.y));
            }
        }
    }
}

// What a call answered that can't be refused.
template <class Value>
Value sure(sheets::Answer<Value> answer) {
    if (!answer) throw std::logic_error("a sheet that is repaired was refused: " + sheets::sentence(answer.refusal));
    return std::move(answer.value);
}

bool is_blob(Mode mode) { return mode == Mode::Blob || mode == Mode::OlderBlob; }

// The double areas by the triangles that each polygon owns, from polygon 1 on.
std::vector<std::int64_t> areas_of(const Numbers &table, const Bytes &owners, std::size_t polygons) {
    std::vector<std::int64_t> areas(polygons);
    const auto corner = [&](std::size_t k) { return Point{table[2 * k], table[2 * k + 1]}; };
    for (std::size_t k = 0; k < owners.size(); k++) areas[owners[k] - 1u] += double_area(corner(3 * k), corner(3 * k + 1), corner(3 * k + 2));
    return areas;
}

}  // namespace

Outcome of(const Bytes &sheet, Mode mode, sheets::Way way) {
    const auto owners = sheets::owners_by(sheet.data(), sheet.size(), mode, way);
    if (!owners) return {owners.refusal};
    const Bytes index = sure(sheets::index_by(sheet.data(), sheet.size(), mode));
    Numbers numbers = sure(sheets::numbers_by(sheet.data(), sheet.size(), mode));
    const std::size_t table = is_blob(mode) ? 2 : 1, behind = table + 6 * owners.value.size();
    const auto polygons = static_cast<std::uint32_t>(numbers[behind]);
    const auto areas = areas_of({numbers.begin() + static_cast<std::ptrdiff_t>(table), numbers.end()}, owners.value, polygons);
    Outcome outcome;
    Repaired &repaired = outcome.repaired;
    repaired.was_clean = sheets::verdict_by(sheet.data(), sheet.size(), mode).finding == sheets::Finding::Clean;
    numbers.resize(behind + 1);
    for (std::uint32_t polygon = 1; polygon <= polygons; polygon++) {
        if (areas[polygon - 1] == 0) {
            repaired.without.push_back(polygon);
            continue;
        }
        const auto parts = parts_of(rings_of(sure(sheets::rings_indexed(sheet.data(), sheet.size(), index, mode, way, polygon))));
        outcome.over = over(polygon, parts);
        if (!outcome.over.empty()) return outcome;
        put(numbers, parts);
        repaired.areas.push_back(areas[polygon - 1]);
        repaired.renumbered |= !repaired.without.empty();
    }
    numbers[behind] = static_cast<std::int32_t>(repaired.areas.size());
    repaired.bytes = sure(is_blob(mode) ? sheets::write_blob(numbers) : sheets::write(numbers));
    return outcome;
}

bool is_clean(const Bytes &bytes, Mode mode, const std::vector<std::int64_t> &areas) {
    const Mode present = is_blob(mode) ? Mode::Blob : Mode::Present;
    const auto found = sheets::areas_by(bytes.data(), bytes.size(), present);
    return found && found.value == areas && sheets::verdict_by(bytes.data(), bytes.size(), present).finding == sheets::Finding::Clean;
}

std::string sentence(const Repaired &repaired) {
    if (repaired.was_clean) return "clean";
    if (repaired.without.empty()) return "repaired";
    const bool one = repaired.without.size() == 1;
    std::string text = one ? "repaired without polygon " : "repaired without polygons ";
    for (std::uint32_t polygon : repaired.without) text += std::to_string(polygon) + (polygon == repaired.without.back() ? "" : ", ");
    text += one ? ", which has no ground left" : ", which have no ground left";
    return text + (!repaired.renumbered ? "" : one ? "; those behind it are renumbered" : "; those behind them are renumbered");
}

}  // namespace repair
