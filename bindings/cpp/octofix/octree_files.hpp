// What stands in files of maps beside the map: streams, headers, records. Part of
// octofix_octree.hpp.
#ifndef OCTOFIX_OCTREE_FILES_HPP
#define OCTOFIX_OCTREE_FILES_HPP

#include "../octofix.hpp"

#include <algorithm>
#include <istream>
#include <ostream>
#include <sstream>

namespace octofix {
namespace detail {

/// Writes a file from a byte on.
inline bool put(std::ostream &out, const bytes &file, std::size_t from) {
    out.write(reinterpret_cast<const char *>(file.data()) + from,
              static_cast<std::streamsize>(file.size() - from));
    return static_cast<bool>(out);
}

/// Writes a file whole, as a map does, and answers whether it could.
inline bool put_file(const std::string &name, const bytes &file) {
    try {
        write_file(name, file);
    } catch (const std::filesystem::filesystem_error &) {
        return false;
    }
    return true;
}

/// Where the records of a canonical .bt file begin.
inline std::size_t data_of(const bytes &file) {
    const std::string mark = "\ndata\n";
    const auto at = std::search(file.begin(), file.end(), mark.begin(), mark.end());
    return static_cast<std::size_t>(at - file.begin()) + mark.size();
}

/// A line of a stream with its end, or as much of it as a header may have.
inline std::string line_of(std::istream &in) {
    std::string line;
    for (char c; line.size() < 65536 && in.get(c);) {
        line += c;
        if (c == '\n') break;
    }
    return line;
}

/// Adds the records of a tree to a file. The stream is left at the byte after them.
inline void add_records(std::istream &in, bytes &file) {
    constexpr std::size_t most = std::size_t{1} << 30, most_at_once = 1 << 15;
    for (std::size_t to_come = 1; to_come > 0 && in && file.size() < most;) {
        const std::size_t begin = file.size(), records = std::min(to_come, most_at_once);
        file.resize(begin + 2 * records);
        in.read(reinterpret_cast<char *>(file.data() + begin),
                static_cast<std::streamsize>(2 * records));
        file.resize(begin + static_cast<std::size_t>(in.gcount()));
        to_come -= records;
        for (std::size_t i = begin; i < file.size(); ++i)
            for (unsigned child = 0; child < 4; ++child)
                to_come += (file[i] >> 2 * child & 3) == 3;
    }
}

/// The .bt file that a stream has next; the stream is left at the byte after it. Of what is no such
/// file it has the beginning.
inline bytes tree_of(std::istream &in) {
    bytes file;
    bool has_records = false;
    for (std::string word; in && word != "data" && file.size() < 65536;) {
        const bool is_first = file.empty();
        const std::string line = line_of(in);
        file.insert(file.end(), line.begin(), line.end());
        if (is_first && line.compare(0, 28, "# Octomap OcTree binary file") != 0) return file;
        std::istringstream words(line);
        word.clear();
        words >> word;
        if (std::string number; word == "size" && words >> number)
            has_records = number.find_first_not_of('0') != std::string::npos;
    }
    if (has_records) add_records(in, file);
    return file;
}

/// The edge of a voxel in metres that the header of a .bt file says, or 0.
inline double resolution_of(const bytes &file) {
    const std::size_t most = std::min<std::size_t>(file.size(), 65536);
    std::istringstream head(std::string(file.begin(), file.begin() + static_cast<long>(most)));
    std::string res;
    for (std::string line, word; std::getline(head, line) && word != "data";) {
        std::istringstream words(line);
        if (words >> word && word == "res") words >> res;
    }
    return number_of(res);
}

/// A length in metres, to the nanometre.
inline std::string decimal(std::int64_t nanometres) {
    const std::string part = std::to_string(1000000000 + nanometres % 1000000000);
    return std::to_string(nanometres / 1000000000) + '.' + part.substr(1);
}

/// The .bt file of records, as messages have them, of voxels of this edge.
inline bytes with_header(const bytes &records, std::int64_t edge) {
    std::size_t nodes = records.empty() ? 0 : 1;
    for (const unsigned four : records)
        for (unsigned child = 0; child < 4; ++child) nodes += (four >> 2 * child & 3) != 0;
    const std::string head = "# Octomap OcTree binary file\nid OcTree\nsize " +
                             std::to_string(nodes) + "\nres " + decimal(edge) + "\ndata\n";
    bytes file(head.begin(), head.end());
    file.insert(file.end(), records.begin(), records.end());
    return file;
}

} // namespace detail
} // namespace octofix

#endif
