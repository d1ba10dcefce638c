// What the words of the checker's command ask for.
#pragma once

#include "geopackage.hpp"

#include <cstdint>
#include <optional>
#include <stdexcept>
#include <string>
#include <vector>

namespace options {

// A point, in millimetres.
struct Point {
    std::int32_t x, y;
};

struct Asked {
    bool batch = false, older = false, blob = false, longest = false;
    geopackage::Chosen chosen = {};
    std::optional<Point> at = {};
    std::optional<std::string> repair = {};
    std::vector<std::string> paths = {};
};

// A text that is asked for in the place of everything else.
struct Text {
    const char *text;
};

// Why the words can't be followed.
struct Misled : std::runtime_error {
    using std::runtime_error::runtime_error;
};

// What the words ask for. Throws a Text that is asked for, unless a word before it can't be followed, and Misled where one can't.
Asked asked_by(const std::vector<std::string> &words);

}  // namespace options
