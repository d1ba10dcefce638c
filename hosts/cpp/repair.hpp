// A sheet whose polygons are those of another one after repair, by the rings that the library joins. docs/DECISIONS.md, "Repaired sheets out", says how they are put
// together. The gate has the same.
#pragma once

#include <sheets.hpp>

#include <cstdint>
#include <string>
#include <vector>

namespace repair {

// A sheet after repair.
struct Repaired {
    sheets::Bytes bytes = {};
    bool was_clean = false;
    // The polygons that no ground is left to, which are left out, and whether others stand behind one of them.
    std::vector<std::uint32_t> without = {};
    bool renumbered = false;
    // The double areas of the others, by the triangles that each owns.
    std::vector<std::int64_t> areas = {};
};

// What becomes of a sheet: it is repaired, unless it is refused, or a polygon of it would be over a limit; which, in words.
struct Outcome {
    sheets::Refusal refusal = {};
    std::string over = {};
    Repaired repaired = {};
};

// Repairs a sheet that is read in this mode, its gaps filled in this way. What is written is a sheet alone, or a blob where one was read.
Outcome of(const sheets::Bytes &sheet, sheets::Mode mode, sheets::Way way);

// Are the bytes, read again, those of a clean sheet whose polygons have these double areas?
bool is_clean(const sheets::Bytes &bytes, sheets::Mode mode, const std::vector<std::int64_t> &areas);

// What was done, in words.
std::string sentence(const Repaired &repaired);

}  // namespace repair
