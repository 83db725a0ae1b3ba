// Files, which are read and written whole. Part of octofix.hpp.
#ifndef OCTOFIX_FILES_HPP
#define OCTOFIX_FILES_HPP

#include "types.hpp"

#include <algorithm>
#include <cerrno>
#include <cstddef>
#include <cstdint>
#include <cstdio>
#include <filesystem>
#include <fstream>
#include <istream>
#include <limits>
#include <locale>
#include <optional>
#include <random>
#include <sstream>
#include <string>
#include <system_error>
#include <utility>
#include <vector>

#include <fcntl.h>
#include <sys/stat.h>
#include <unistd.h>

namespace octofix {

/// Bytes of a .bt file or of a snapshot.
using bytes = std::vector<std::uint8_t>;

namespace detail {

/// All that a stream still has, or more than so many bytes of it; none where it can't be read.
inline std::optional<bytes> rest_of(std::istream &in, std::size_t most) {
    if (!in) return std::nullopt;
    bytes all;
    for (char part[1 << 14];
         all.size() <= most && (in.read(part, sizeof part) || in.gcount() > 0);)
        all.insert(all.end(), part, part + in.gcount());
    return in.bad() ? std::nullopt : std::make_optional(std::move(all));
}

/// The number that a text is, with the decimal point of files, whatever the program's locale has;
/// 0 where it is none.
inline double number_of(const std::string &text) {
    std::istringstream in(text);
    in.imbue(std::locale::classic());
    double number = 0;
    return in >> number && in.eof() ? number : 0;
}

/// Throws what errno says of a file.
[[noreturn]] inline void fail(const char *what, const std::filesystem::path &path) {
    throw std::filesystem::filesystem_error(what, path,
                                            std::error_code(errno, std::generic_category()));
}

/// A file; of one that has more than so many bytes, as a device without an end, so many and more.
inline bytes read_file(const std::filesystem::path &path,
                       std::size_t most = std::numeric_limits<std::size_t>::max()) {
    errno = 0;
    std::ifstream file(path, std::ios::binary);
    std::optional<bytes> content = rest_of(file, most);
    if (!content) fail("can't be read", path);
    return *std::move(content);
}

/// Whether a file begins as a snapshot.
inline bool is_snapshot(view<std::uint8_t> file) {
    static const std::string mark = "OCTSNAP";
    return file.size() >= mark.size() && std::equal(mark.begin(), mark.end(), file.begin());
}

/// A map's file; of one that has more bytes than a map may have, so many that it is refused.
inline bytes read_map(const std::filesystem::path &path) {
    return read_file(path, most_bytes);
}

/// An open file that is to be written, and its name in errors.
class output {
  public:
    output(const std::filesystem::path &place, int how, mode_t mode, std::filesystem::path name)
        : name_(std::move(name)), number_(::open(place.c_str(), how | O_CLOEXEC, mode)) {
        if (number_ < 0) fail("can't be written", name_);
    }
    output(const output &) = delete;
    output &operator=(const output &) = delete;
    ~output() {
        if (number_ >= 0) ::close(number_);
    }

    int number() const { return number_; }
    void write(const bytes &content) {
        for (std::size_t done = 0; done < content.size();) {
            const ssize_t came = ::write(number_, content.data() + done, content.size() - done);
            if (came < 0 && errno != EINTR) fail("can't be written", name_);
            if (came > 0) done += static_cast<std::size_t>(came);
        }
    }
    void sync() {
        if (::fsync(number_) != 0) fail("can't be written", name_);
    }
    void close() {
        if (::close(std::exchange(number_, -1)) != 0) fail("can't be written", name_);
    }

  private:
    std::filesystem::path name_;
    int number_;
};

/// Where a file is in the end, behind links, of which the last may lead to nothing yet.
inline std::filesystem::path behind_links(std::filesystem::path path) {
    std::error_code none;
    for (int links = 0; links < 40 && std::filesystem::is_symlink(path, none); ++links)
        path = path.parent_path() / std::filesystem::read_symlink(path);
    return path;
}

/// Gives a file the mode of one that it is to replace and, where that may be set, its owner.
inline void take_after(int file, const struct stat &old) {
    const bool has_owner = ::fchown(file, old.st_uid, old.st_gid) == 0;
    if (!has_owner && ::fchown(file, static_cast<uid_t>(-1), old.st_gid) != 0) errno = 0;
    if (::fchmod(file, old.st_mode & (has_owner ? 07777 : 0777)) != 0) errno = 0;
}

/// Writes a file beside a place, and puts it there when it is whole. Nothing of it stays where that
/// fails.
inline void replace_file(const std::filesystem::path &place, const struct stat *old,
                         const bytes &content, const std::filesystem::path &name) {
    const auto part =
        place.parent_path() / (".octofix." + std::to_string(std::random_device()()) + ".part");
    output file(part, O_WRONLY | O_CREAT | O_EXCL, old ? 0600 : 0666, name);
    try {
        file.write(content);
        if (old) take_after(file.number(), *old);
        file.sync();
        file.close();
        if (::rename(part.c_str(), place.c_str()) != 0) fail("can't be written", name);
    } catch (...) {
        ::unlink(part.c_str());
        throw;
    }
}

/// Writes a file. One that stands, also behind a link, is replaced only where it may be written to,
/// and when the new one is whole, which takes its mode and, where that may be set, its owner. What
/// is no regular file, as a device or a pipe, is written to as it is.
inline void write_file(const std::filesystem::path &path, const bytes &content) {
    struct stat old, found;
    const bool stands = ::stat(path.c_str(), &old) == 0;
    if (!stands && errno != ENOENT) fail("can't be written", path);
    if (stands && ::faccessat(AT_FDCWD, path.c_str(), W_OK, AT_EACCESS) != 0)
        fail("can't be written", path);
    const std::filesystem::path place = behind_links(path);
    const bool is_found = stands && ::stat(place.c_str(), &found) == 0 &&
                          found.st_dev == old.st_dev && found.st_ino == old.st_ino;
    if (!stands || (S_ISREG(old.st_mode) && is_found))
        return replace_file(place, stands ? &old : nullptr, content, path);
    output file(path, S_ISREG(old.st_mode) ? O_WRONLY | O_TRUNC : O_WRONLY, 0, path);
    file.write(content);
    file.close();
}

} // namespace detail
} // namespace octofix

#endif
