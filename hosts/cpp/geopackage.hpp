// The sheets of a GeoPackage file, row by row: the blobs of its geometry columns, as SQLite's own library reads them. Nothing is ever written to the file; a copy
// of it may have other blobs.
#pragma once

#include <sheets.hpp>

#include <cstdint>
#include <functional>
#include <optional>
#include <string>

namespace geopackage {

// Which rows are asked for: those of every table, column and id where none is named.
struct Chosen {
    std::optional<std::string> table = {}, column = {};
    std::optional<std::int64_t> id = {};
};

// A row by the name FILE/TABLE/ID, and whether it can have another blob in a copy: it can't in a view, and in a table without row numbers.
struct Row {
    std::string name;
    bool can_change;
};

// What is done with a row, which may answer the blob that a copy is to have in its place; and with what could not be read, a row or a table, FILE/TABLE.
struct Taker {
    std::function<std::optional<sheets::Bytes>(const Row &row, sheets::Bytes blob)> row;
    std::function<void(const std::string &name, const std::string &why)> unread;
};

// Does a file's name end as a GeoPackage's does?
bool is_name(const std::string &path);

// Goes over the rows by table and id. Throws files::Unread where the file is no GeoPackage, has no such row, or was changed meanwhile. Where a copy is named, an
// empty file, it is the file with the blobs that were answered; throws files::Unwritten where it can't be made.
void each_row(const std::string &path, const Chosen &chosen, const Taker &taker, const std::optional<std::string> &copy = {});

}  // namespace geopackage
