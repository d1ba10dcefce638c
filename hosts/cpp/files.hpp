// Reading a sheet from a regular file or from standard input, never more of it than reading can look at; and files that are written beside others.
#pragma once

#include <sheets.hpp>

#include <fcntl.h>
#include <sys/stat.h>
#include <unistd.h>

#include <cerrno>
#include <cstdio>
#include <cstring>
#include <stdexcept>
#include <string>

namespace files {

// A file that could not be read, with the reason.
struct Unread : std::runtime_error {
    using std::runtime_error::runtime_error;
};

// A file that could not be written, with the reason.
struct Unwritten : std::runtime_error {
    using std::runtime_error::runtime_error;
};

// The reason is the system's.
[[noreturn]] inline void fail() { throw Unread(std::strerror(errno)); }

// Why a file of this kind is no sheet file; null for a regular one.
inline const char *irregular(mode_t mode) {
    if (S_ISREG(mode)) return nullptr;
    return S_ISDIR(mode) ? "it is a folder" : S_ISFIFO(mode) ? "it is a pipe" : S_ISSOCK(mode) ? "it is a socket" : "it is a device";
}

inline void expect_regular(const struct stat &found) {
    if (const char *why = irregular(found.st_mode)) throw Unread(why);
}

// The bytes of an open file from its place on, all that reading can look at.
inline sheets::Bytes first_bytes(int file) {
    sheets::Bytes bytes(SHEETS_READ_CAP);
    std::size_t have = 0;
    while (have < bytes.size()) {
        const ssize_t n = ::read(file, bytes.data() + have, bytes.size() - have);
        if (n == 0) break;
        if (n > 0) have += static_cast<std::size_t>(n);
        if (n < 0 && errno != EINTR) fail();
    }
    bytes.resize(have);
    return bytes;
}

// A file opened for as long as this stands.
class File {
   public:
    explicit File(const std::string &path) : number_(open(path.c_str(), O_RDONLY | O_NONBLOCK | O_NOCTTY | O_CLOEXEC)) {
        if (number_ < 0) fail();
    }
    ~File() { close(number_); }
    File(const File &) = delete;
    File &operator=(const File &) = delete;
    int number() const { return number_; }

   private:
    int number_;
};

// The sheet in a file, or on standard input for '-'. The kind of the file is looked at before it is opened, so that no device is touched, and once it is
// open, so that no pipe put in its place is read.
inline sheets::Bytes read(const std::string &path) {
    if (path == "-") return first_bytes(STDIN_FILENO);
    struct stat found;
    if (stat(path.c_str(), &found) != 0) fail();
    expect_regular(found);
    const File file(path);
    if (fstat(file.number(), &found) != 0) fail();
    expect_regular(found);
    return first_bytes(file.number());
}

// Can a file of this name be made of that input? Where there is one, it must be regular, and not the input itself.
inline void expect_writable(const std::string &path, const std::string &input) {
    struct stat found, read;
    if (stat(path.c_str(), &found) != 0) return;
    const int known = input == "-" ? fstat(STDIN_FILENO, &read) : stat(input.c_str(), &read);
    if (known == 0 && found.st_dev == read.st_dev && found.st_ino == read.st_ino) throw Unwritten("it is the input itself");
    if (const char *why = irregular(found.st_mode)) throw Unwritten(why);
}

// SQLite must have no changes for a file of this name, which it would make to any file there.
inline void expect_no_changes(const std::string &path) {
    struct stat found;
    for (const char *end : {"-wal", "-journal"})
        if (stat((path + end).c_str(), &found) == 0) throw Unwritten("SQLite's changes to a file of that name stand beside it");
}

// A file in the folder of another, under a name of its own, until it is kept under the other's. Else it is gone again.
class Draft {
   public:
    explicit Draft(const std::string &path) : path_(path) {
        const std::string folder = path.substr(0, path.rfind('/') + 1);
        for (int k = 0; number_ < 0; k++) {
            name_ = folder + ".repair-" + std::to_string(getpid()) + '-' + std::to_string(k);
            number_ = open(name_.c_str(), O_WRONLY | O_CREAT | O_EXCL | O_CLOEXEC, 0666);
            if (number_ < 0 && errno != EEXIST) refuse();
        }
    }
    ~Draft() {
        close(number_);
        if (!kept_) unlink(name_.c_str());
    }
    Draft(const Draft &) = delete;
    Draft &operator=(const Draft &) = delete;
    const std::string &name() const { return name_; }
    // Writes all of the bytes, to the disk itself.
    void write(const sheets::Bytes &bytes) const {
        for (std::size_t have = 0; have < bytes.size();) {
            const ssize_t n = ::write(number_, bytes.data() + have, bytes.size() - have);
            if (n > 0) have += static_cast<std::size_t>(n);
            if (n < 0 && errno != EINTR) refuse();
        }
        if (fsync(number_) != 0) refuse();
    }
    void keep() {
        if (rename(name_.c_str(), path_.c_str()) != 0) refuse();
        kept_ = true;
    }

   private:
    [[noreturn]] static void refuse() { throw Unwritten(std::strerror(errno)); }
    std::string path_, name_;
    int number_ = -1;
    bool kept_ = false;
};

}  // namespace files
