// File names as both programs print them, whatever bytes they have: docs/DECISIONS.md, "The two products", says which bytes stand as they are.
#pragma once

#include <algorithm>
#include <cstddef>
#include <string>
#include <string_view>

namespace names {

// A character, and how many bytes it has.
struct Character {
    std::size_t size;
    char32_t number;
};

// The character at the front of a text in well-formed UTF-8; size 0 where there is none.
inline Character first(std::string_view text) {
    auto byte = [&](std::size_t k) { return k < text.size() ? static_cast<unsigned char>(text[k]) : 0u; };
    const unsigned lead = byte(0);
    const std::size_t size = lead < 0x80 ? 1 : lead < 0xc2 ? 0 : lead < 0xe0 ? 2 : lead < 0xf0 ? 3 : lead < 0xf5 ? 4 : 0;
    char32_t number = size == 1 ? lead : lead & (0x7f >> size);
    for (std::size_t k = 1; k < size; k++) {
        if ((byte(k) & 0xc0) != 0x80) return {0, 0};
        number = number << 6 | (byte(k) & 0x3f);
    }
    const bool overlong = (size == 3 && number < 0x800) || (size == 4 && number < 0x10000);
    const bool surrogate = number >= 0xd800 && number <= 0xdfff;
    if (overlong || surrogate || number > 0x10ffff) return {0, 0};
    return {size, number};
}

// Is it a control character, a line or paragraph separator, or a direction control?
inline bool controls(char32_t c) {
    return c < 0x20 || (c >= 0x7f && c <= 0x9f) || c == 0x61c || c == 0x200e || c == 0x200f || (c >= 0x2028 && c <= 0x202e) || (c >= 0x2066 && c <= 0x2069);
}

// Bytes as \xHH each.
inline std::string escaped(std::string_view bytes) {
    const char digits[] = "0123456789abcdef";
    std::string text;
    for (char c : bytes) {
        const unsigned byte = static_cast<unsigned char>(c);
        text += {'\\', 'x', digits[byte >> 4], digits[byte & 15]};
    }
    return text;
}

// A name as it is printed.
inline std::string shown(std::string_view name) {
    std::string text;
    while (!name.empty()) {
        const Character c = first(name);
        const std::string_view bytes = name.substr(0, std::max<std::size_t>(c.size, 1));
        if (c.size == 0 || controls(c.number))
            text += escaped(bytes);
        else
            text += c.number == '\\' ? "\\\\" : bytes;
        name.remove_prefix(bytes.size());
    }
    return text;
}

}  // namespace names
