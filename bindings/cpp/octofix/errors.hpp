// What the calls throw. Part of octofix.hpp.
#ifndef OCTOFIX_ERRORS_HPP
#define OCTOFIX_ERRORS_HPP

#include "octofix.h"

#include <cstddef>
#include <cstdint>
#include <new>
#include <stdexcept>
#include <string>

namespace octofix {

using details = octofix_details;

namespace detail {

/// The most bytes that a file of a map may have.
inline constexpr std::size_t most_bytes = std::size_t{1} << 30;
/// The code of one that has more, which no call of C answers.
inline constexpr std::uint32_t file_too_large = 34;

/// What the numbers are called that a refusal names, and how many there are.
struct named_numbers {
    std::uint32_t code;
    const char *first, *second;
};

inline constexpr named_numbers numbers_of_codes[] = {
    {OCTOFIX_BAD_MODEL, "field", nullptr},      {OCTOFIX_POINT_OUTSIDE, "index", nullptr},
    {OCTOFIX_TOO_MANY_CELLS, "index", "cells"}, {OCTOFIX_TOO_MANY_BLOCKS, "count", nullptr},
    {OCTOFIX_MISSING_FIELD, "field", nullptr},  {OCTOFIX_BAD_FIELD, "field", nullptr},
    {OCTOFIX_TOO_DEEP, "at", nullptr},          {OCTOFIX_TRUNCATED, "at", nullptr},
    {OCTOFIX_TRAILING_BYTES, "at", nullptr},    {OCTOFIX_SIZE_MISMATCH, "said", "found"},
    {OCTOFIX_BAD_SNAPSHOT, "at", nullptr},      {OCTOFIX_FULL, "groups", "need"},
    {OCTOFIX_OUTSIDE, "point", nullptr},        {OCTOFIX_WIDE_WHILE_TRACKED, "count", nullptr},
    {OCTOFIX_OTHER_RESOLUTION, "file", "map"},  {OCTOFIX_WIDE_GRID, "count", nullptr},
    {OCTOFIX_BAD_ARGUMENT, "index", nullptr},   {file_too_large, "count", nullptr},
};

/// The name of a code.
inline const char *name_of(std::uint32_t code) {
    const char *name = octofix_code_name(code);
    return name ? name : "?";
}

/// The name of the field of this number, where a refusal names one; else null.
inline const char *field_of(std::uint32_t code, std::uint64_t number) {
    constexpr const char *of_odds[] = {"hit", "miss", "min", "max", "thr"};
    constexpr const char *of_headers[] = {"id", "res", "size", "data"};
    switch (code) {
    case OCTOFIX_BAD_MODEL: return number < 5 ? of_odds[number] : nullptr;
    case OCTOFIX_MISSING_FIELD:
    case OCTOFIX_BAD_FIELD: return number < 4 ? of_headers[number] : nullptr;
    default: return nullptr;
    }
}

/// The text of a refusal, as `refused 7 PointOutside index 3` or `refused 14 BadField res`. The
/// index of a bad argument is said of a call that takes an array.
inline std::string text_of(std::uint32_t code, const details &named, bool is_of_array) {
    std::string text = "refused " + std::to_string(code) + ' ' + name_of(code);
    if (const char *field = field_of(code, named.first)) return text + ' ' + field;
    if (code == OCTOFIX_BAD_ARGUMENT && !is_of_array) return text;
    const auto append = [&](const char *name, std::uint64_t number) {
        if (name) text += std::string(" ") + name + ' ' + std::to_string(number);
    };
    for (const named_numbers &it : numbers_of_codes)
        if (it.code == code) append(it.first, named.first), append(it.second, named.second);
    return text;
}

/// What helps against a refusal by a limit; else nothing.
inline const char *hint_of(std::uint32_t code) {
    switch (code) {
    case OCTOFIX_FULL: return "limits::max_groups of the map allows no more, and may be up to 2^26";
    case OCTOFIX_TOO_MANY_CELLS:
        return "limits::max_cells of the map allows no more, and may be up to 2^27; with a range "
               "beams meet fewer";
    case file_too_large: return "a snapshot has up to 2^30 bytes; save() writes classes in fewer";
    default: return "";
    }
}

} // namespace detail

/// What a map refuses: a code of octofix.h, its name, and what it names.
class refused : public std::runtime_error {
  public:
    explicit refused(std::uint32_t code, const octofix::details &named = {},
                     bool is_of_array = false)
        : std::runtime_error(detail::text_of(code, named, is_of_array)), code_(code),
          details_(named) {}
    std::uint32_t code() const { return code_; }
    const char *name() const { return detail::name_of(code_); }
    const octofix::details &details() const { return details_; }
    /// Which limit it is, for people; empty where it is none.
    const char *hint() const { return detail::hint_of(code_); }

  private:
    std::uint32_t code_;
    octofix::details details_;
};

/// A refusal of edit_all: the edits before this one were done.
class edits_refused : public refused {
  public:
    edits_refused(std::uint32_t code, const octofix::details &named, std::size_t done)
        : refused(code, named, true), done_(done) {}
    std::size_t done() const { return done_; }

  private:
    std::size_t done_;
};

/// Memory ran out for an edit of edit_all: the edits before it were done.
class edits_out_of_memory : public std::bad_alloc {
  public:
    explicit edits_out_of_memory(std::size_t done) : done_(done) {}
    std::size_t done() const { return done_; }
    const char *what() const noexcept override { return "memory ran out for an edit"; }

  private:
    std::size_t done_;
};

/// A number of metres that isn't finite, or of magnitude 10^7 or more, with the index of its point;
/// or a range below 0.
class bad_length : public std::domain_error {
  public:
    explicit bad_length(std::size_t index = 0)
        : std::domain_error("point " + std::to_string(index) +
                            " isn't finite, or 10^7 m or more from the origin"),
          index_(index) {}
    /// That of a length, and of no point.
    explicit bad_length(const std::string &text) : std::domain_error(text) {}
    std::size_t index() const { return index_; }

  private:
    std::size_t index_ = 0;
};

} // namespace octofix

#endif
