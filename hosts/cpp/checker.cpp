// The desktop checker's command line: prints the listing of sheets, or one verdict line for each, and writes sheets after repair.
#include "files.hpp"
#include "geopackage.hpp"
#include "names.hpp"
#include "options.hpp"
#include "repair.hpp"

#include <sheets.hpp>

#include <pthread.h>
#include <unistd.h>

#include <algorithm>
#include <cerrno>
#include <csignal>
#include <cstdint>
#include <cstdio>
#include <cstring>
#include <exception>
#include <new>
#include <optional>
#include <stdexcept>
#include <string>
#include <string_view>
#include <vector>

namespace {

using sheets::Finding;
using sheets::Mode;
using sheets::Verdict;

// The exit statuses; the highest counts.
enum Status { Clean = 0, Repair = 1, Refused = 2, Unreadable = 3 };

// Writes all of a text, at once, so that it is kept whatever ends the program.
void put(std::string_view text) {
    while (!text.empty()) {
        const ssize_t n = write(STDOUT_FILENO, text.data(), text.size());
        if (n > 0) text.remove_prefix(static_cast<std::size_t>(n));
        if (n < 0 && errno != EINTR) throw std::runtime_error(std::string("standard output could not be written: ") + std::strerror(errno));
    }
}

// A message; where standard error can't be written, nobody is there to be told.
void say(std::string_view text) {
    if (write(STDERR_FILENO, text.data(), text.size()) < 0) return;
}

// The verdict that a listing tells.
Verdict told(const std::string &listing) {
    unsigned code = 0;
    unsigned long long item = 0;
    if (std::sscanf(listing.c_str(), "refused %u %llu", &code, &item) == 2) return {Finding::Refused, {code, item}};
    if (listing.find("\nverdict clean\n") != std::string::npos) return {Finding::Clean, {}};
    if (listing.find("\nverdict repair\n") != std::string::npos) return {Finding::Repair, {}};
    throw std::logic_error("a listing without a verdict");
}

// A number, its digits in threes from the right with commas between.
std::string grouped(std::uint64_t number) {
    std::string digits = std::to_string(number);
    for (std::size_t place = digits.size(); place > 3;) digits.insert(place -= 3, ",");
    return digits;
}

// How a sheet is read, how its gaps are filled, and the point that is asked for, if one is.
struct How {
    Mode mode;
    sheets::Way way;
    std::optional<options::Point> at;
};

// How sheets are read of which this is said.
Mode mode_of(bool older, bool blob) {
    if (blob) return older ? Mode::OlderBlob : Mode::Blob;
    return older ? Mode::Older : Mode::Present;
}

// How blobs are read where other files are read so.
Mode of_blobs(Mode mode) { return mode_of(mode == Mode::Older || mode == Mode::OlderBlob, true); }

// A sheet, how it is read and its gaps are filled, and the point that is asked for, if one is.
struct Sheet {
    sheets::Bytes bytes;
    Mode mode;
    sheets::Way way;
    std::optional<options::Point> at;
};

Verdict verdict(const Sheet &sheet) { return sheets::verdict_by(sheet.bytes.data(), sheet.bytes.size(), sheet.mode); }

std::string listing(const Sheet &sheet) { return sheets::listing_by(sheet.bytes.data(), sheet.bytes.size(), sheet.mode, sheet.way); }

std::uint64_t position(const Sheet &sheet) { return sheets::position_by(sheet.bytes.data(), sheet.bytes.size(), sheet.mode).byte; }

// A refusal of a sheet in words, with the position of the field at fault where reading gives it.
std::string refused(const Sheet &sheet, sheets::Refusal refusal) {
    const std::string numbers = "refused " + std::to_string(refusal.code) + ' ' + std::to_string(refusal.item);
    const std::string place = sheets::of_reading(refusal) ? " at byte " + grouped(position(sheet)) : "";
    return numbers + place + ": " + sheets::sentence(refusal);
}

// The verdict on a sheet behind the name of its file.
std::string line(const std::string &path, const Sheet &sheet, const Verdict &verdict) {
    const std::string name = names::shown(path);
    if (verdict.finding == Finding::Clean) return name + ": clean\n";
    if (verdict.finding == Finding::Repair) return name + ": repair\n";
    return name + ": " + refused(sheet, verdict.refusal) + '\n';
}

Status status(const Verdict &verdict) { return verdict.finding == Finding::Clean ? Clean : verdict.finding == Finding::Repair ? Repair : Refused; }

// Who owns the point of a sheet, behind the name of its file.
Status at_point(const std::string &name, const Sheet &sheet, options::Point point) {
    const auto owner = sheets::at_by(sheet.bytes.data(), sheet.bytes.size(), sheet.mode, sheet.way, point.x, point.y);
    const std::string said = owner ? "polygon " + std::to_string(owner.value) : refused(sheet, owner.refusal);
    put(names::shown(name) + ": " + said + '\n');
    return owner ? Clean : Refused;
}

// What is printed for a sheet: its verdict line, its listing, or its name and its listing.
enum class Print { Line, Listing, Named };

Status judged(const std::string &name, const Sheet &sheet, Print print) {
    if (sheet.at) return at_point(name, sheet, *sheet.at);
    if (print == Print::Line) {
        const Verdict found = verdict(sheet);
        put(line(name, sheet, found));
        return status(found);
    }
    const std::string text = listing(sheet);
    put((print == Print::Named ? names::shown(name) + ":\n" : "") + text);
    const Verdict found = told(text);
    if (found.finding == Finding::Refused) say(line(name, sheet, found));
    return status(found);
}

Status unread(const std::string &name, const std::string &why, Print print) {
    const std::string text = names::shown(name) + ": could not be read: " + why + '\n';
    print == Print::Line ? put(text) : say(text);
    return Unreadable;
}

// The sheets of a GeoPackage, each by its name.
int judged_rows(const std::string &path, How how, const geopackage::Chosen &chosen, Print print) {
    const Print named = print == Print::Line ? Print::Line : Print::Named;
    int worst = Clean;
    const auto row = [&](const geopackage::Row &found, sheets::Bytes blob) {
        worst = std::max<int>(worst, judged(found.name, {std::move(blob), of_blobs(how.mode), how.way, how.at}, named));
        return std::nullopt;
    };
    const auto none = [&](const std::string &name, const std::string &why) { worst = std::max<int>(worst, unread(name, why, print)); };
    geopackage::each_row(path, chosen, {row, none});
    return worst;
}

int check(const std::string &path, How how, const geopackage::Chosen &chosen, Print print) {
    try {
        if (geopackage::is_name(path)) return judged_rows(path, how, chosen, print);
        return judged(path, {files::read(path), how.mode, how.way, how.at}, print);
    } catch (const files::Unread &reason) {
        return unread(path, reason.what(), print);
    }
}

// Checks the files in their order.
int check_all(std::vector<std::string> paths, How how, const geopackage::Chosen &chosen, bool batch) {
    if (paths.empty()) paths.push_back("-");
    if (std::count(paths.begin(), paths.end(), "-") > 1) {
        say("checker: standard input can be named only once\n");
        return Unreadable;
    }
    const Print print = batch || how.at ? Print::Line : paths.size() == 1 ? Print::Listing : Print::Named;
    int worst = Clean;
    for (const std::string &path : paths) worst = std::max(worst, check(path, how, chosen, print));
    return worst;
}

// What is said of an input that could not be written.
Status unwritten(const std::string &name, const std::string &out, const std::string &why) {
    put(names::shown(name) + ": could not be written to " + names::shown(out) + ": " + why + '\n');
    return Unreadable;
}

// What is said of a sheet that was repaired, or why it wasn't.
Status repaired(const std::string &name, const Sheet &sheet, const repair::Outcome &outcome) {
    const bool is_refused = outcome.refusal.code != 0, is_over = !outcome.over.empty();
    const std::string said = is_refused ? refused(sheet, outcome.refusal) : is_over ? "over the limits: " + outcome.over : repair::sentence(outcome.repaired);
    put(names::shown(name) + ": " + said + '\n');
    return is_refused || is_over ? Refused : outcome.repaired.without.empty() ? Clean : Repair;
}

bool is_repaired(const repair::Outcome &outcome) { return outcome.refusal.code == 0 && outcome.over.empty(); }

const char not_wanted[] = "what was written is not the sheet after repair";

// What was written, read again, must be the sheet that was to be.
void expect_wanted(const sheets::Bytes &bytes, Mode mode, const std::vector<std::int64_t> &areas) {
    if (!repair::is_clean(bytes, mode, areas)) throw files::Unwritten(not_wanted);
}

// Repairs the sheet in a file; nothing is written where it isn't repaired.
Status repair_sheet(const std::string &path, How how, const std::string &out) {
    const Sheet sheet = {files::read(path), how.mode, how.way, {}};
    const repair::Outcome outcome = repair::of(sheet.bytes, sheet.mode, sheet.way);
    if (is_repaired(outcome)) {
        files::Draft draft(out);
        draft.write(outcome.repaired.bytes);
        expect_wanted(files::read(draft.name()), sheet.mode, outcome.repaired.areas);
        draft.keep();
    }
    return repaired(path, sheet, outcome);
}

// Repairs the rows of a GeoPackage in a copy of it; the others stay as they are.
int repair_rows(const std::string &path, How how, const geopackage::Chosen &chosen, const std::string &out) {
    files::Draft draft(out);
    const Mode mode = of_blobs(how.mode);
    std::vector<std::optional<std::vector<std::int64_t>>> wanted;
    int worst = Clean;
    const auto row = [&](const geopackage::Row &found, sheets::Bytes blob) -> std::optional<sheets::Bytes> {
        const Sheet sheet = {std::move(blob), mode, how.way, {}};
        const repair::Outcome outcome = repair::of(sheet.bytes, sheet.mode, sheet.way);
        const bool changes = is_repaired(outcome) && found.can_change;
        wanted.push_back(changes ? std::optional(outcome.repaired.areas) : std::nullopt);
        const bool is_fixed = is_repaired(outcome) && !found.can_change;
        const char *why = "its table is a view, or has no row numbers";
        worst = std::max<int>(worst, is_fixed ? unwritten(found.name, out, why) : repaired(found.name, sheet, outcome));
        return changes ? std::optional(outcome.repaired.bytes) : std::nullopt;
    };
    const auto none = [&](const std::string &name, const std::string &why) {
        wanted.push_back({});
        worst = std::max<int>(worst, unread(name, why, Print::Line));
    };
    geopackage::each_row(path, chosen, {row, none}, draft.name());
    std::size_t next = 0;
    const auto again = [&](const geopackage::Row &, const sheets::Bytes &blob) -> std::optional<sheets::Bytes> {
        const auto &expected = wanted.at(next++);
        if (expected) expect_wanted(blob, mode, *expected);
        return {};
    };
    geopackage::each_row(draft.name(), chosen, {again, [&](const std::string &, const std::string &) { next++; }});
    if (next != wanted.size()) throw files::Unwritten(not_wanted);
    draft.keep();
    return worst;
}

// Repairs a file into another of its kind.
int repair_file(const std::string &path, How how, const geopackage::Chosen &chosen, const std::string &out) {
    const bool is_package = geopackage::is_name(path);
    try {
        if (is_package && !geopackage::is_name(out)) throw files::Unwritten("a GeoPackage's name ends in .gpkg");
        if (!is_package && geopackage::is_name(out)) throw files::Unwritten("a name that ends in .gpkg is a GeoPackage's");
        files::expect_writable(out, path);
        if (is_package) files::expect_no_changes(out);
        return is_package ? repair_rows(path, how, chosen, out) : repair_sheet(path, how, out);
    } catch (const files::Unread &reason) {
        return unread(path, reason.what(), Print::Line);
    } catch (const files::Unwritten &reason) {
        return unwritten(path, out, reason.what());
    }
}

// Does what the words of the command say.
int run(const std::vector<std::string> &words) {
    try {
        const options::Asked asked = options::asked_by(words);
        const auto way = asked.longest ? sheets::Way::Longest : sheets::Way::Priority;
        const How how = {mode_of(asked.older, asked.blob), way, asked.at};
        if (asked.repair) return repair_file(asked.paths.empty() ? "-" : asked.paths[0], how, asked.chosen, *asked.repair);
        return check_all(asked.paths, how, asked.chosen, asked.batch);
    } catch (const options::Text &asked) {
        put(asked.text);
        return Clean;
    } catch (const options::Misled &why) {
        say(std::string("checker: ") + why.what() + '\n');
        return Unreadable;
    }
}

// The command's words, and the status to end with.
struct Command {
    std::vector<std::string> words;
    int status = Unreadable;
};

void *follow(void *given) {
    Command &command = *static_cast<Command *>(given);
    try {
        command.status = run(command.words);
    } catch (const std::bad_alloc &) {
        say("checker: out of memory\n");
    } catch (const std::exception &error) {
        for (const char *text : {"checker: ", error.what(), "\n"}) say(text);
    }
    return nullptr;
}

// Where there is no memory to throw an exception either.
[[noreturn]] void end() {
    say("checker: out of memory\n");
    _exit(Unreadable);
}

}  // namespace

// The work is done on a thread that has the stack which the library needs, whatever the limits of the first one.
int main(int count, char **words) {
    std::signal(SIGPIPE, SIG_IGN);  // a closed pipe is told as any other output that can't be written
    std::set_terminate(end);
    Command command{{words + 1, words + count}};
    pthread_attr_t attributes;
    pthread_attr_init(&attributes);
    pthread_attr_setstacksize(&attributes, 2 * SHEETS_STACK);
    pthread_t thread;
    const int failed = pthread_create(&thread, &attributes, follow, &command);
    if (failed != 0) {
        for (const char *text : {"checker: no thread could be started: ", static_cast<const char *>(std::strerror(failed)), "\n"}) say(text);
        return Unreadable;
    }
    pthread_join(thread, nullptr);
    return command.status;
}
