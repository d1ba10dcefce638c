// The checker's options, as CLI11 takes them from a command.
#include "options.hpp"

#include "names.hpp"

#include <sheets.h>
#include <CLI/CLI.hpp>

#include <algorithm>
#include <charconv>
#include <cstdint>
#include <string>

namespace options {

namespace {

const char help[] =
    "usage: checker [--batch] [--older] [--blob] [--longest] [--at X,Y] [--repair OUT] [--table NAME] [--column NAME] [--where-id N] [FILE..]\n"
    "Prints the listing of each sheet file, with its name above where there are several, or of standard input where no file is named.\n"
    "The verdict line of a sheet that is refused or could not be read goes to standard error.\n"
    "A file whose name ends in .gpkg is a GeoPackage: the blob in each row of its geometry columns is a sheet, FILE/TABLE/ID.\n"
    "  --batch      the verdict lines alone: FILE: clean, FILE: repair, FILE: refused CODE ITEM: WHY, or FILE: could not be read: WHY\n"
    "  --older      the sheets are of the older edition: rings that run the wrong way are turned\n"
    "  --blob       each file is a geometry blob of a GeoPackage table, with a sheet in it\n"
    "  --longest    gaps go to the polygon that they share the longest boundary with, and not by priority; verdicts are the same\n"
    "  --at X,Y     who owns the point after repair, X and Y in whole millimetres: FILE: polygon NUMBER, or its line as with --batch\n"
    "  --repair OUT writes the sheet with its polygons after repair to OUT, a blob as a blob, a GeoPackage as a copy of it: FILE: clean, FILE: repaired,\n"
    "               FILE: repaired without polygon NUMBER.., FILE: over the limits: WHY, FILE: could not be written to OUT: WHY, or its line as with --batch\n"
    "  --table NAME, --column NAME, --where-id N\n"
    "               of GeoPackages only the rows of this table, of this geometry column, with this id\n"
    "  -h, --help   this text\n"
    "  --version    the version\n"
    "  --           every word behind it is a file\n"
    "With the codes 1 to 8 it is refused CODE ITEM at byte N: WHY, where N is the place of the fault in the file, 0 for its first byte.\n"
    "FILE is a regular file, or - for standard input. A file whose name begins with a dash is written ./-name, or behind --.\n"
    "Exit status: 0 all sheets are clean, 1 one needs repair, 2 one is refused, 3 one could not be read; the highest counts.\n"
    "With --at it is 0 where every sheet has an owner there. With --repair it is 0 where every sheet is written, 1 where one is without a polygon that has no\n"
    "ground left, 2 where one is refused or over the limits, 3 where one could not be read or written.\n";

const char version[] = "checker " SHEETS_VERSION "\n";

// The words that are no options, without the mark behind which every word is a file. One before it that looks like an option is none that there is.
std::vector<std::string> files_in(std::vector<std::string> words) {
    const auto mark = std::find(words.begin(), words.end(), "--");
    const auto unknown = std::find_if(words.begin(), mark, [](const std::string &word) { return word.size() > 1 && word[0] == '-'; });
    if (unknown != mark) {
        const std::string name = names::shown(*unknown);
        throw Misled("there is no option " + name + ": see checker --help; a file of that name is written ./" + name + " or behind --");
    }
    if (mark != words.end()) words.erase(mark);
    return words;
}

// Does a text begin with an option that takes a value, and go on with '=' or, as CLI11 says that it has none, with ':'?
bool is_name(const std::string &text) {
    const std::string word = text.substr(0, text.find_first_of("=:"));
    return word.size() < text.size() && (word == "--table" || word == "--column" || word == "--where-id" || word == "--at" || word == "--repair");
}

Misled without_value(const std::string &option) { return Misled("the option " + option + " takes a value: see checker --help"); }

// Adds an option whose value is the next word, whatever it is, or stands behind '='; the last counts.
void add_name(CLI::App &app, const std::string &option, std::optional<std::string> &name) {
    const auto named = [&name](const CLI::results_t &values) {
        name = values.back();
        return true;
    };
    app.add_option(option, named)->expected(1)->take_last();
}

// The whole number that a text is; none where it is none of 64 bits.
std::optional<std::int64_t> number_of(const std::string &text) {
    std::int64_t number = 0;
    const auto [end, failed] = std::from_chars(text.data(), text.data() + text.size(), number);
    if (failed != std::errc() || end != text.data() + text.size()) return {};
    return number;
}

// The point that X,Y names: two whole numbers of 32 bits.
Point point_of(const std::string &text) {
    const std::size_t comma = std::min(text.find(','), text.size());
    const auto x = number_of(text.substr(0, comma)), y = number_of(text.substr(std::min(comma + 1, text.size())));
    const auto fits = [](const std::optional<std::int64_t> &number) { return number && *number >= INT32_MIN && *number <= INT32_MAX; };
    if (!fits(x) || !fits(y)) throw Misled("there is no point " + names::shown(text) + ": --at takes X,Y, two whole numbers of 32 bits");
    return {static_cast<std::int32_t>(*x), static_cast<std::int32_t>(*y)};
}

// Adds options that ask for a text.
void add_text(CLI::App &app, const char *options, const char *text) {
    const auto asked = [&app, text] {
        files_in(app.remaining());
        throw Text{text};
    };
    app.add_flag_callback(options, asked)->trigger_on_parse();
}

}  // namespace

// Files are what CLI11 leaves over: as the values of an option it would take the name [a,b] for two.
Asked asked_by(const std::vector<std::string> &words) {
    Asked asked;
    CLI::App app;
    app.set_help_flag();
    app.allow_extras();
    app.option_defaults()->disable_flag_override();
    app.add_flag("--batch", asked.batch);
    app.add_flag("--older", asked.older);
    app.add_flag("--blob", asked.blob);
    app.add_flag("--longest", asked.longest);
    std::optional<std::string> id, at;
    add_name(app, "--table", asked.chosen.table);
    add_name(app, "--column", asked.chosen.column);
    add_name(app, "--where-id", id);
    add_name(app, "--at", at);
    add_name(app, "--repair", asked.repair);
    add_text(app, "-h,--help", help);
    add_text(app, "--version", version);
    const auto mark = std::find(words.begin(), words.end(), "--");
    const auto empty = std::find_if(words.begin(), mark, [](const std::string &word) { return is_name(word) && word.back() == '='; });
    if (empty != mark) throw without_value(empty->substr(0, empty->size() - 1));
    try {
        app.parse(std::vector<std::string>(words.rbegin(), words.rend()));
    } catch (const CLI::ArgumentMismatch &mismatch) {
        files_in(app.remaining());
        const std::string why = mismatch.what();
        if (is_name(why)) throw without_value(why.substr(0, why.find(':')));
        const auto has_value = [](const std::string &word) { return word[0] == '-' && word.find('=') != std::string::npos && !is_name(word); };
        const auto with_value = std::find_if(words.begin(), words.end(), has_value);
        if (with_value == words.end()) throw;
        throw Misled("the option " + with_value->substr(0, with_value->find('=')) + " takes no value: see checker --help");
    }
    asked.paths = files_in(app.remaining());
    if (id && !(asked.chosen.id = number_of(*id))) throw Misled("the option --where-id takes a whole number: see checker --help");
    if (at) asked.at = point_of(*at);
    if (asked.repair && asked.repair->empty()) throw without_value("--repair");
    if (asked.repair && asked.at) throw Misled("--at and --repair can't be asked for at once: see checker --help");
    if (asked.repair && asked.paths.size() > 1) throw Misled("with --repair one file can be named, and not several: see checker --help");
    if (asked.repair == "-") throw Misled("the option --repair takes the name of a file, which - is not: see checker --help");
    return asked;
}

}  // namespace options
