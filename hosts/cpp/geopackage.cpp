// GeoPackage files by SQLite. docs/DECISIONS.md, "GeoPackage files", says how one is opened, which rows it has, and what their ids are.
#include "geopackage.hpp"

#include "files.hpp"
#include "names.hpp"

#include <sqlite3.h>
#include <strings.h>

#include <cstdio>
#include <cstdlib>
#include <new>
#include <string_view>
#include <tuple>
#include <vector>

namespace geopackage {

namespace {

using files::Unread;

// How long another program that is writing to the file is waited for, in milliseconds.
constexpr int patience = 1000;

// A database, open for as long as this stands. Errors are SQLite's own, in its words.
class Base {
   public:
    explicit Base(const std::string &uri, int flags = SQLITE_OPEN_READONLY) {
        const int failed = sqlite3_open_v2(uri.c_str(), &base_, flags | SQLITE_OPEN_URI | SQLITE_OPEN_NOMUTEX, nullptr);
        if (failed == SQLITE_OK) return;
        sqlite3_close(base_);
        if (failed == SQLITE_NOMEM) throw std::bad_alloc();
        throw Unread(sqlite3_errstr(failed));
    }
    ~Base() { sqlite3_close(base_); }
    Base(const Base &) = delete;
    Base &operator=(const Base &) = delete;
    sqlite3 *get() const { return base_; }
    void expect_memory() const {
        if (sqlite3_errcode(base_) == SQLITE_NOMEM) throw std::bad_alloc();
    }
    [[noreturn]] void fail() const {
        expect_memory();
        throw Unread(names::shown(sqlite3_errmsg(base_)));
    }
    void run(const char *sql) const {
        if (sqlite3_exec(base_, sql, nullptr, nullptr, nullptr) != SQLITE_OK) fail();
    }

   private:
    sqlite3 *base_ = nullptr;
};

// A statement and the row that it stands at.
class Statement {
   public:
    Statement(const Base &base, const std::string &sql) : base_(base) {
        if (sqlite3_prepare_v2(base.get(), sql.c_str(), -1, &statement_, nullptr) != SQLITE_OK) base.fail();
    }
    ~Statement() { sqlite3_finalize(statement_); }
    Statement(const Statement &) = delete;
    Statement &operator=(const Statement &) = delete;
    void bind(int place, const std::optional<std::string> &text) {
        if (text) sqlite3_bind_text64(statement_, place, text->data(), text->size(), SQLITE_TRANSIENT, SQLITE_UTF8);
    }
    void bind(int place, std::int64_t number) { sqlite3_bind_int64(statement_, place, number); }
    void bind(int place, const sheets::Bytes &blob) { sqlite3_bind_blob64(statement_, place, blob.data(), blob.size(), SQLITE_TRANSIENT); }
    bool step() {
        const int stepped = sqlite3_step(statement_);
        if (stepped != SQLITE_ROW && stepped != SQLITE_DONE) base_.fail();
        return stepped == SQLITE_ROW;
    }
    bool is_blob(int column) const { return sqlite3_column_type(statement_, column) == SQLITE_BLOB; }
    bool is_null(int column) const { return sqlite3_column_type(statement_, column) == SQLITE_NULL; }
    std::int64_t number(int column) const { return sqlite3_column_int64(statement_, column); }
    std::string text(int column) const {
        const auto *text = reinterpret_cast<const char *>(sqlite3_column_text(statement_, column));
        if (text != nullptr) return std::string(text, size(column));
        base_.expect_memory();
        return "NULL";
    }
    sheets::Bytes blob(int column) const {
        const auto *bytes = static_cast<const std::uint8_t *>(sqlite3_column_blob(statement_, column));
        return bytes == nullptr ? sheets::Bytes{} : sheets::Bytes(bytes, bytes + size(column));
    }

   private:
    std::size_t size(int column) const { return static_cast<std::size_t>(sqlite3_column_bytes(statement_, column)); }
    const Base &base_;
    sqlite3_stmt *statement_ = nullptr;
};

// A name as SQL has it.
std::string quoted(const std::string &name) {
    std::string text = "\"";
    for (char c : name) text += c == '"' ? "\"\"" : std::string(1, c);
    return text + '"';
}

// Can a statement have the name in it?
bool is_text(std::string_view name) {
    while (!name.empty()) {
        const names::Character c = names::first(name);
        if (c.size == 0 || c.number == 0) return false;
        name.remove_prefix(c.size);
    }
    return true;
}

// What the system tells of a file that is another once its content is; a size below 0 where there is none.
struct Seen {
    off_t size = -1;
    std::tuple<dev_t, ino_t, time_t, long> which = {};
};

Seen seen(const std::string &path) {
    struct stat found;
    if (stat(path.c_str(), &found) != 0) return {};
    return {found.st_size, {found.st_dev, found.st_ino, found.st_mtim.tv_sec, found.st_mtim.tv_nsec}};
}

bool operator==(const Seen &one, const Seen &other) { return one.size == other.size && one.which == other.which; }

// A GeoPackage's file, where it really is, and that of changes which SQLite keeps beside it; both as they were seen.
struct Place {
    std::string file, changes;
    Seen seen_file = seen(file), seen_changes = seen(changes);
    bool is_changed() const { return !(seen(file) == seen_file && seen(changes) == seen_changes); }
};

Place place_of(const std::string &path) {
    char *real = realpath(path.c_str(), nullptr);
    if (real == nullptr) files::fail();
    const std::string file = real;
    std::free(real);
    return Place{file, file + "-wal"};
}

// The way to open it that writes nothing, neither to the file nor beside it.
enum class Way { Locked, Immutable, WithChanges };

Way way_to(const Place &place) {
    sheets::Bytes header = files::read(place.file);
    header.resize(20);
    if (place.seen_changes.size > 0 && place.seen_file.size > 0) return Way::WithChanges;
    const bool keeps_changes = header[18] == 2 || header[19] == 2;
    return keeps_changes || place.seen_changes.size >= 0 ? Way::Immutable : Way::Locked;
}

// The path as SQLite takes it with settings behind it.
std::string uri(const std::string &file, const std::string &settings) {
    std::string text = "file://";
    for (char c : file) {
        char escaped[4];
        std::snprintf(escaped, sizeof escaped, "%%%02x", static_cast<unsigned char>(c));
        text += c == '/' ? "/" : escaped;
    }
    return text + settings;
}

std::string uri(const Place &place, Way way) {
    return uri(place.file, way == Way::Immutable ? "?immutable=1" : way == Way::WithChanges ? "?mode=ro&vfs=unix-none" : "?mode=ro");
}

// Sets a database up, and looks whether it is a GeoPackage.
void begin(const Base &base, Way way) {
    sqlite3_busy_timeout(base.get(), patience);
    sqlite3_db_config(base.get(), SQLITE_DBCONFIG_NO_CKPT_ON_CLOSE, 1, nullptr);
    if (way == Way::WithChanges) base.run("PRAGMA locking_mode = EXCLUSIVE");
    base.run("PRAGMA trusted_schema = OFF; BEGIN");
    Statement found(base, "PRAGMA application_id");
    found.step();
    const auto id = static_cast<std::uint32_t>(found.number(0));
    for (const char *known : {"GPKG", "GP10", "GP11"}) {
        std::uint32_t number = 0;
        for (int k = 0; k < 4; k++) number = number << 8 | static_cast<std::uint32_t>(known[k]);
        if (id == number) return;
    }
    char why[64];
    std::snprintf(why, sizeof why, "its application id is 0x%08x, which is no GeoPackage's", id);
    throw Unread(why);
}

// A geometry column, and its table's name as it is printed: with the column where the table has several.
struct Column {
    std::string table, column, shown;
};

std::vector<Column> columns(const Base &base, const Chosen &chosen) {
    Statement found(base,
                    "WITH named AS (SELECT DISTINCT coalesce(CAST(table_name AS TEXT), '') AS t, coalesce(CAST(column_name AS TEXT), '') AS c"
                    " FROM gpkg_geometry_columns)"
                    " SELECT t, c, t || CASE WHEN (SELECT count(*) FROM named AS n WHERE n.t = named.t) > 1 THEN '.' || c ELSE '' END FROM named"
                    " WHERE (?1 IS NULL OR t = ?1 COLLATE NOCASE) AND (?2 IS NULL OR c = ?2 COLLATE NOCASE)"
                    " ORDER BY t COLLATE BINARY, c COLLATE BINARY");
    found.bind(1, chosen.table);
    found.bind(2, chosen.column);
    std::vector<Column> columns;
    while (found.step()) columns.push_back({found.text(0), found.text(1), found.text(2)});
    return columns;
}

// The answers of a statement about a table, one text each.
std::vector<std::string> told(const Base &base, const std::string &sql, const std::string &table) {
    Statement found(base, sql);
    found.bind(1, table);
    std::vector<std::string> texts;
    while (found.step()) texts.push_back(found.text(0));
    return texts;
}

// Is there what a statement asks for?
bool has(const Base &base, const std::string &sql) {
    try {
        Statement(base, sql);
        return true;
    } catch (const Unread &) {
        return false;
    }
}

// How SQL names a table's rows: the number that SQLite has for each, NULL where it has none, and the id.
struct Rows {
    std::string number, id;
};

Rows rows_of(const Base &base, const std::string &table) {
    Rows rows = {"NULL", ""};
    const auto free = told(base,
                           "SELECT column1 FROM (VALUES ('rowid'), ('_rowid_'), ('oid'))"
                           " WHERE lower(column1) NOT IN (SELECT lower(name) FROM pragma_table_info(?1))"
                           " AND NOT EXISTS (SELECT 1 FROM sqlite_master WHERE type = 'view' AND name = ?1 COLLATE NOCASE) LIMIT 1",
                           table);
    if (!free.empty() && has(base, "SELECT t." + free[0] + " FROM " + quoted(table) + " AS t")) rows.number = "t." + free[0];
    const auto key = told(base, "SELECT name FROM pragma_table_info(?1) WHERE pk > 0", table);
    const auto first = told(base, "SELECT name FROM pragma_table_info(?1) WHERE cid = 0", table);
    if (key.size() == 1)
        rows.id = "t." + quoted(key[0]);
    else
        rows.id = rows.number != "NULL" || first.empty() ? rows.number : "t." + quoted(first[0]);
    return rows;
}

// The first bytes of a row whose blob is longer than reading looks at.
sheets::Bytes first_bytes(const Base &base, const Column &column, std::int64_t row) {
    sqlite3_blob *blob = nullptr;
    if (sqlite3_blob_open(base.get(), "main", column.table.c_str(), column.column.c_str(), row, 0, &blob) != SQLITE_OK) base.fail();
    sheets::Bytes bytes(SHEETS_READ_CAP);
    const bool read = sqlite3_blob_read(blob, bytes.data(), static_cast<int>(bytes.size()), 0) == SQLITE_OK;
    if (!read) base.expect_memory();
    const std::string why = sqlite3_errmsg(base.get());
    sqlite3_blob_close(blob);
    if (!read) throw Unread(names::shown(why));
    return bytes;
}

// A copy of a GeoPackage whose blobs are changed, all of them at once or none. Its pages are those of the file, with the changes that stand beside it. No trigger is
// run: what keeps an index of frames asks for functions that SQLite has not, and the frames stay.
class Copy {
   public:
    Copy(const Base &base, const std::string &name) : base_(filled(base, place_of(name).file), SQLITE_OPEN_READWRITE) {
        sqlite3_db_config(base_.get(), SQLITE_DBCONFIG_ENABLE_TRIGGER, 0, nullptr);
        base_.run("PRAGMA journal_mode = MEMORY; PRAGMA trusted_schema = OFF; BEGIN");
    }
    void put(const Column &column, std::int64_t row, const std::string &number, const sheets::Bytes &blob) const {
        Statement change(base_, "UPDATE " + quoted(column.table) + " AS t SET " + quoted(column.column) + " = ?1 WHERE " + number + " = ?2");
        change.bind(1, blob);
        change.bind(2, row);
        change.step();
    }
    void finish() const { base_.run("COMMIT"); }

   private:
    static std::string filled(const Base &base, const std::string &file) {
        const Base copy(uri(file, "?mode=rw"), SQLITE_OPEN_READWRITE);
        sqlite3_backup *pages = sqlite3_backup_init(copy.get(), "main", base.get(), "main");
        if (pages == nullptr) copy.fail();
        const int stepped = sqlite3_backup_step(pages, -1);
        if (sqlite3_backup_finish(pages) != SQLITE_OK) copy.fail();
        if (stepped != SQLITE_DONE) throw Unread(sqlite3_errstr(stepped));
        return uri(file, "?mode=rw");
    }
    Base base_;
};

// The bytes of the row that a statement stands at: a blob, or the number of a row with a longer one, or NULL where such a row has no number.
sheets::Bytes bytes_of(const Base &base, const Column &column, const Statement &row) {
    if (row.is_blob(1)) return row.blob(1);
    if (row.is_null(1)) throw Unread(sqlite3_errstr(SQLITE_TOOBIG));
    return first_bytes(base, column, row.number(1));
}

// What is to be written, as what could not be.
template <class Writing>
auto written(Writing writing) {
    try {
        return writing();
    } catch (const Unread &why) {
        throw files::Unwritten(why.what());
    }
}

// Hands the rows of one column on, and puts what is answered into the copy; how many there are.
std::size_t each_of(const Base &base, const std::string &name, const Column &column, const Chosen &chosen, const Taker &taker, const Copy *copy) {
    if (!is_text(column.table) || !is_text(column.column)) throw Unread("its name isn't text that a statement can have");
    const Rows rows = rows_of(base, column.table);
    const std::string geometry = "t." + quoted(column.column);
    const std::string longer = "typeof(" + geometry + ") = 'blob' AND length(" + geometry + ") > " + std::to_string(SHEETS_READ_CAP);
    Statement row(base, "SELECT CAST(" + rows.id + " AS TEXT), CASE WHEN " + longer + " THEN " + rows.number + " ELSE coalesce(CAST(" + geometry +
                            " AS BLOB), x'') END, " + rows.number + " FROM " + quoted(column.table) + " AS t" +
                            (chosen.id ? " WHERE " + rows.id + " = ?1" : "") + " ORDER BY " + rows.id);
    if (chosen.id) row.bind(1, *chosen.id);
    std::size_t count = 0;
    for (; row.step(); count++) {
        const std::string row_name = name + '/' + row.text(0);
        sheets::Bytes bytes;
        try {
            bytes = bytes_of(base, column, row);
        } catch (const Unread &why) {
            taker.unread(row_name, why.what());
            continue;
        }
        const auto other = taker.row({row_name, !row.is_null(2)}, std::move(bytes));
        if (copy != nullptr && other) written([&] { copy->put(column, row.number(2), rows.number, *other); });
    }
    return count;
}

}  // namespace

bool is_name(const std::string &path) { return path.size() >= 5 && strcasecmp(path.c_str() + path.size() - 5, ".gpkg") == 0; }

void each_row(const std::string &path, const Chosen &chosen, const Taker &taker, const std::optional<std::string> &copied) {
    const Place place = place_of(path);
    const Way way = way_to(place);
    std::size_t found = 0;
    {
        const Base base(uri(place, way));
        begin(base, way);
        std::optional<Copy> copy;
        if (copied) written([&] { copy.emplace(base, *copied); });
        for (const Column &column : columns(base, chosen)) {
            const std::string name = path + '/' + column.shown;
            try {
                found += each_of(base, name, column, chosen, taker, copy ? &*copy : nullptr);
            } catch (const Unread &why) {
                taker.unread(name, why.what());
                found++;
            }
        }
        if (copy) written([&] { copy->finish(); });
    }
    if (place.is_changed()) throw Unread("it was changed while it was read");
    if (found == 0) throw Unread("there is no row to check in it");
}

}  // namespace geopackage
