// Calls the entries, or the functions of sheets.hpp, as the frames of standard input say, for a program that has the library on the other side of a pipe.
// A frame: u8 function (0 numbers, 1 write, 2 owner sets, 3 owners, 4 boundary, 5 listing, 6 verdict, 7 position; 8 numbers, 9 owner sets, 10 owners, 11 boundary,
// 12 listing by what is asked; 13 write blob, 14 areas, 15 at a point, whose x and y, i32 LE, stand before the input and count with it; 16 index; 17 owner sets, 18 owners, 19 boundary with an index; 20 rings, 21 rings with an index; 22 ring room), u32 LE mode, u32 LE way, u32 LE polygon, u32 LE input length, u32 LE room, input. The answer: u64 LE packed answer,
// then the lent bytes after the entry's call; lent byte i is (i * 131 + 17) % 256 before it. No bytes, of the input or lent, come with a null pointer. Bytes before
// and behind the lent ones are watched: where a call changes one, or one of its input, the program ends with status 2. Where an index is lent, the input is a u32 LE
// length, so many bytes of the sheet, and then the index.
// With a room of 2^32 - 1 a function of sheets.hpp is called. The answer: u64 LE packed answer, u32 LE length, its value in so many bytes, none for a refusal; a
// verdict is one byte, 0 clean or 1 repair, and in mode 0 a verdict, a position and areas are those without a mode, in mode 0 and way 0 a point's owner, rings and their room. With --stack N the calls are made on a thread with N KiB
// of stack.
#include <sheets.hpp>

#include <pthread.h>
#include <unistd.h>

#include <cstdint>
#include <cstdio>
#include <cstdlib>
#include <cstring>
#include <string>
#include <vector>

namespace {

using sheets::Bytes;

constexpr std::size_t head = 21, guard = 64, chunk = 1 << 16, most_room = 1 << 20;
constexpr std::uint8_t watched = 0x5a;
constexpr std::uint32_t own_room = 0xffffffff;

std::uint32_t number(const std::uint8_t *at) { return at[0] | at[1] << 8 | at[2] << 16 | static_cast<std::uint32_t>(at[3]) << 24; }

// What a frame asks for.
struct Asked {
    unsigned function;
    std::uint32_t mode, way, polygon;
    std::int32_t x = 0, y = 0;
};

// The bytes before a frame's input, a point's x and y among them.
std::size_t before_input(const std::uint8_t *frame) { return frame[0] == 15 ? head + 8 : head; }

Asked asked_in(const std::uint8_t *frame) {
    Asked asked = {frame[0], number(frame + 1), number(frame + 5), number(frame + 9)};
    if (before_input(frame) == head) return asked;
    asked.x = static_cast<std::int32_t>(number(frame + head));
    asked.y = static_cast<std::int32_t>(number(frame + head + 4));
    return asked;
}

// The sheet and the index of an input with both. No bytes come with a null pointer.
struct Parted {
    const std::uint8_t *sheet, *index;
    std::size_t size, length;
};

Parted parted(const std::uint8_t *input, std::size_t size) {
    if (size < 4 || number(input) > size - 4) std::exit(3);
    const std::size_t sheet = number(input), index = size - 4 - sheet;
    return {sheet == 0 ? nullptr : input + 4, index == 0 ? nullptr : input + 4 + sheet, sheet, index};
}

// The call of an entry that takes an index.
std::uint64_t call_indexed(const Asked &asked, const Parted &p, std::uint8_t *lent, std::size_t room) {
    switch (asked.function) {
        case 17: return sheet_owner_sets_indexed(p.sheet, p.size, p.index, p.length, asked.mode, lent, room);
        case 18: return sheet_owners_indexed(p.sheet, p.size, p.index, p.length, asked.mode, asked.way, lent, room);
    }
    const auto entry = asked.function == 19 ? sheet_boundary_indexed : sheet_rings_indexed;
    return entry(p.sheet, p.size, p.index, p.length, asked.mode, asked.way, asked.polygon, lent, room);
}

std::uint64_t call(const Asked &asked, const std::uint8_t *input, std::size_t size, std::uint8_t *lent, std::size_t room) {
    switch (asked.function) {
        case 0: return sheet_numbers(input, size, lent, room);
        case 1: return sheet_write(input, size, lent, room);
        case 2: return sheet_owner_sets(input, size, lent, room);
        case 3: return sheet_owners(input, size, lent, room);
        case 4: return sheet_boundary(input, size, asked.polygon, lent, room);
        case 5: return sheet_listing(input, size, lent, room);
        case 7: return sheet_position(input, size, asked.mode, lent, room);
        case 8: return sheet_numbers_by(input, size, asked.mode, lent, room);
        case 9: return sheet_owner_sets_by(input, size, asked.mode, lent, room);
        case 10: return sheet_owners_by(input, size, asked.mode, asked.way, lent, room);
        case 11: return sheet_boundary_by(input, size, asked.mode, asked.way, asked.polygon, lent, room);
        case 12: return sheet_listing_by(input, size, asked.mode, asked.way, lent, room);
        case 13: return sheet_write_blob(input, size, lent, room);
        case 14: return sheet_areas(input, size, asked.mode, lent, room);
        case 15: return sheet_at(input, size, asked.mode, asked.way, asked.x, asked.y);
        case 16: return sheet_index(input, size, asked.mode, lent, room);
        case 20: return sheet_rings(input, size, asked.mode, asked.way, asked.polygon, lent, room);
        case 22: return sheet_ring_room(input, size, asked.mode, asked.way, asked.polygon);
        case 17:
        case 18:
        case 19:
        case 21: return call_indexed(asked, parted(input, size), lent, room);
    }
    std::exit(3);
}

// Lent bytes as they are before every call, with a guard on either side of the first `room` of them.
const Bytes &fresh() {
    static const Bytes bytes = [] {
        Bytes all(most_room);
        for (std::size_t i = 0; i < all.size(); i++) all[i] = static_cast<std::uint8_t>(i * 131 + 17);
        return all;
    }();
    return bytes;
}

bool untouched(const std::uint8_t *at) {
    static const Bytes guards(guard, watched);
    return std::memcmp(at, guards.data(), guard) == 0;
}

// Puts the low bytes of a number behind others.
void put_number(Bytes &bytes, std::uint64_t number, int size) {
    for (int k = 0; k < size; k++) bytes.push_back(static_cast<std::uint8_t>(number >> 8 * k));
}

// Makes the call of one frame, and puts its answer behind the others.
void answer(const std::uint8_t *frame, std::size_t size, std::size_t room, Bytes &answers) {
    static Bytes lent, before;
    if (room > most_room) std::exit(3);
    lent.resize(room + 2 * guard);
    std::memset(lent.data(), watched, guard);
    std::memcpy(lent.data() + guard, fresh().data(), room);
    std::memset(lent.data() + guard + room, watched, guard);
    const std::uint8_t *input = frame + before_input(frame);
    before.assign(input, input + size);
    std::uint64_t packed = call(asked_in(frame), size == 0 ? nullptr : input, size, room == 0 ? nullptr : lent.data() + guard, room);
    if (!untouched(lent.data()) || !untouched(lent.data() + guard + room) || (size != 0 && std::memcmp(before.data(), input, size) != 0)) {
        std::fprintf(stderr, "bridge: a byte outside the lent ones was changed\n");
        std::exit(2);
    }
    put_number(answers, packed, 8);
    answers.insert(answers.end(), lent.begin() + guard, lent.begin() + guard + room);
}

// The little-endian numbers of an input.
std::vector<std::int32_t> numbers_in(const std::uint8_t *input, std::size_t size) {
    std::vector<std::int32_t> numbers;
    for (std::size_t at = 0; at < size; at += 4) numbers.push_back(static_cast<std::int32_t>(number(input + at)));
    return numbers;
}

// What a function of sheets.hpp answered: the refusal, or the item and the value in bytes.
struct Value {
    sheets::Refusal refusal;
    std::uint64_t item = 0;
    Bytes bytes = {};
};

// The packed answer of a refusal, or of an item.
std::uint64_t packed(sheets::Refusal refusal, std::uint64_t item) { return refusal.code == 0 ? item << 8 : refusal.item << 8 | refusal.code; }

template <class Number>
Bytes bytes_of(const std::vector<Number> &numbers) {
    Bytes bytes;
    for (Number number : numbers) put_number(bytes, static_cast<std::uint64_t>(number), sizeof number);
    return bytes;
}

Bytes bytes_of(const std::vector<sheets::Side> &sides) {
    Bytes bytes;
    for (const sheets::Side &side : sides)
        for (std::int32_t number : {side.ux, side.uy, side.vx, side.vy}) put_number(bytes, static_cast<std::uint64_t>(number), 4);
    return bytes;
}

Value listing(const std::string &text) { return {{}, text.size(), Bytes(text.begin(), text.end())}; }

Value verdict(const sheets::Verdict &verdict) {
    if (verdict.finding == sheets::Finding::Refused) return {verdict.refusal};
    return {{}, 0, {static_cast<std::uint8_t>(verdict.finding == sheets::Finding::Repair)}};
}

Value position(const sheets::Position &position) {
    Bytes bytes;
    put_number(bytes, packed(position.answer.refusal, position.answer.value), 8);
    put_number(bytes, position.byte, 8);
    return {{}, bytes.size(), bytes};
}

// A point's owner is the item, and no value has bytes.
Value owner(const sheets::Answer<std::uint32_t> &owner) { return {owner.refusal, owner.value}; }

// So is the room of rings.
Value room(const sheets::Answer<std::size_t> &room) { return {room.refusal, room.value}; }

// An answer whose item is the length of its value, or of the value's bytes.
template <class T>
Value counted(const sheets::Answer<T> &answer, bool by_bytes) {
    if (!answer) return {answer.refusal};
    Bytes bytes = bytes_of(answer.value);
    return {{}, by_bytes ? bytes.size() : answer.value.size(), bytes};
}

// The mode and the way of a number.
sheets::Mode mode_of(std::uint32_t number) {
    using sheets::Mode;
    static const Mode modes[] = {Mode::Present, Mode::Older, Mode::Blob, Mode::OlderBlob};
    if (number > 3) std::exit(3);
    return modes[number];
}

sheets::Way way_of(std::uint32_t number) {
    if (number > 1) std::exit(3);
    return number == 0 ? sheets::Way::Priority : sheets::Way::Longest;
}

Value wrapped_indexed(const Asked &asked, const Parted &p, sheets::Mode mode, sheets::Way way) {
    const Bytes index(p.index, p.index + p.length);
    switch (asked.function) {
        case 17: return counted(sheets::owner_sets_indexed(p.sheet, p.size, index, mode), false);
        case 18: return counted(sheets::owners_indexed(p.sheet, p.size, index, mode, way), false);
        case 21: return counted(sheets::rings_indexed(p.sheet, p.size, index, mode, way, asked.polygon), true);
    }
    return counted(sheets::boundary_indexed(p.sheet, p.size, index, mode, way, asked.polygon), false);
}

Value wrapped(const Asked &asked, const std::uint8_t *input, std::size_t size) {
    const sheets::Mode mode = mode_of(asked.mode);
    const sheets::Way way = way_of(asked.way);
    const bool present = mode == sheets::Mode::Present;
    switch (asked.function) {
        case 0: return counted(sheets::numbers(input, size), true);
        case 1: return counted(sheets::write(numbers_in(input, size)), true);
        case 2: return counted(sheets::owner_sets(input, size), false);
        case 3: return counted(sheets::owners(input, size), false);
        case 4: return counted(sheets::boundary(input, size, asked.polygon), false);
        case 5: return listing(sheets::listing(input, size));
        case 6: return verdict(present ? sheets::verdict(input, size) : sheets::verdict_by(input, size, mode));
        case 7: return position(present ? sheets::position(input, size) : sheets::position_by(input, size, mode));
        case 8: return counted(sheets::numbers_by(input, size, mode), true);
        case 9: return counted(sheets::owner_sets_by(input, size, mode), false);
        case 10: return counted(sheets::owners_by(input, size, mode, way), false);
        case 11: return counted(sheets::boundary_by(input, size, mode, way, asked.polygon), false);
        case 12: return listing(sheets::listing_by(input, size, mode, way));
        case 13: return counted(sheets::write_blob(numbers_in(input, size)), true);
        case 14: return counted(present ? sheets::areas(input, size) : sheets::areas_by(input, size, mode), false);
        case 15:
            return owner(present && way == sheets::Way::Priority ? sheets::at(input, size, asked.x, asked.y)
                                                                 : sheets::at_by(input, size, mode, way, asked.x, asked.y));
        case 16: return counted(present ? sheets::index(input, size) : sheets::index_by(input, size, mode), true);
        case 20:
            return counted(
                present && way == sheets::Way::Priority ? sheets::rings(input, size, asked.polygon) : sheets::rings_by(input, size, mode, way, asked.polygon),
                true);
        case 22:
            return room(present && way == sheets::Way::Priority ? sheets::ring_room(input, size, asked.polygon)
                                                                : sheets::ring_room_by(input, size, mode, way, asked.polygon));
        case 17:
        case 18:
        case 19:
        case 21: return wrapped_indexed(asked, parted(input, size), mode, way);
    }
    std::exit(3);
}

// Calls the function of one frame, and puts its answer behind the others. An empty input comes with a null pointer.
void answer_wrapped(const std::uint8_t *frame, std::size_t size, Bytes &answers) {
    Value value = wrapped(asked_in(frame), size == 0 ? nullptr : frame + before_input(frame), size);
    put_number(answers, packed(value.refusal, value.item), 8);
    put_number(answers, value.bytes.size(), 4);
    answers.insert(answers.end(), value.bytes.begin(), value.bytes.end());
}

void put(Bytes &bytes) {
    for (std::size_t done = 0; done < bytes.size();) {
        ssize_t n = write(1, bytes.data() + done, bytes.size() - done);
        if (n <= 0) std::exit(3);
        done += static_cast<std::size_t>(n);
    }
    bytes.clear();
}

// Takes whole frames as they come, and sends the answers of those that have come before it waits for more.
void *serve(void *) {
    Bytes frames, answers;
    for (;;) {
        std::size_t have = frames.size();
        frames.resize(have + chunk);
        ssize_t n = read(0, frames.data() + have, chunk);
        if (n < 0) std::exit(3);
        frames.resize(have + static_cast<std::size_t>(n));
        if (n == 0) std::exit(frames.empty() ? 0 : 3);
        std::size_t at = 0;
        while (frames.size() - at >= head) {
            const std::size_t given = number(&frames[at] + 13), room = number(&frames[at] + 17);
            if (frames.size() - at - head < given) break;
            const std::size_t size = given - (before_input(&frames[at]) - head);
            if (room == own_room)
                answer_wrapped(&frames[at], size, answers);
            else
                answer(&frames[at], size, room, answers);
            at += head + given;
        }
        frames.erase(frames.begin(), frames.begin() + static_cast<std::ptrdiff_t>(at));
        put(answers);
    }
}

}  // namespace

int main(int count, char **words) {
    if (count == 3 && std::strcmp(words[1], "--stack") == 0) {
        pthread_attr_t attributes;
        pthread_t thread;
        pthread_attr_init(&attributes);
        if (pthread_attr_setstacksize(&attributes, std::strtoul(words[2], nullptr, 10) * 1024) != 0) return 3;
        if (pthread_create(&thread, &attributes, serve, nullptr) != 0) return 3;
        pthread_join(thread, nullptr);
    }
    serve(nullptr);
}
