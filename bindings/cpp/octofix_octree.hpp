// octofix_octree.hpp: the occupancy map for programs written for octomap::OcTree.
//
// Such a program is ported by its include, <octofix_octree.hpp> in place of <octomap/octomap.h> and
// <octomap/OcTree.h>, and its namespace, octofix in place of octomap and octomath. The methods are
// those of version 1.9, on the calls of octofix.h. docs/LIBRARY.md says what differs, and why:
// mainly, nodes are copies, values are whole thousandths of log-odds, and beams pass through
// exactly the voxels that they meet.
//
// What can't be had doesn't compile (the form of the tree, colours, scan graphs), or throws
// unsupported with its name. What the map refuses throws refused, and what takes more memory than
// there is std::bad_alloc.
//
// Threads. Methods that are const may run side by side on one tree, as long as no other method runs
// beside them. The nodes that search and updateNode return are good for the next 4,095 such
// calls of their thread; those of getRoot and getNodeChild until something is asked after an edit;
// that of a leaf iterator until it moves, so that it is one for input alone.
#ifndef OCTOFIX_OCTREE_HPP
#define OCTOFIX_OCTREE_HPP

#include "octofix.hpp"
#if __cplusplus >= 201703L // (octofix.hpp tells where it isn't)
#include "octofix/octree_base.hpp"
#include "octofix/octree_cloud.hpp"
#include "octofix/octree_content.hpp"
#include "octofix/octree_files.hpp"
#include "octofix/octree_iterators.hpp"
#include "octofix/octree_keys.hpp"
#include "octofix/octree_leaves.hpp"
#include "octofix/octree_math.hpp"
#include "octofix/octree_nodes.hpp"
#include "octofix/octree_occupancy.hpp"

#include <algorithm>
#include <fstream>
#include <istream>
#include <memory>
#include <ostream>
#include <sstream>
#include <stdexcept>
#include <string>

namespace octofix {

class OcTree : public OcTreeOccupancy {
  public:
    // -- making

    /// An unknown map of voxels of so many metres, with the library's log-odds.
    explicit OcTree(double resolution)
        : OcTreeOccupancy(std::make_unique<OcTreeContent>(detail::edge_of(resolution),
                                                          bounds_at_first)) {}
    /// The same of a float, which stands for the decimal that it prints.
    template <class Float, class = detail::if_float<Float>>
    explicit OcTree(Float resolution) : OcTree(detail::decimal_of(resolution)) {}
    explicit OcTree(const std::string &file) : OcTree(0.1) {
        if (!readBinary(file)) throw std::runtime_error("can't read " + file);
    }
    OcTree(const OcTree &other) : OcTreeOccupancy(other.content().copy(), other) {}
    OcTree &operator=(const OcTree &other) {
        if (this != &other) {
            OcTree copy(other);
            swap(copy);
        }
        return *this;
    }
    virtual ~OcTree() = default;

    OcTree *create() const { return new OcTree(getResolution()); }
    static OcTree *createTree(const std::string &type, double resolution) {
        return type == "OcTree" ? new OcTree(resolution) : nullptr;
    }
    /// Swaps the maps; the changed keys stay, and whether changes are detected.
    void swapContent(OcTree &other) {
        content().keep_changes();
        other.content().keep_changes();
        content().swap_maps(other.content());
        content().renew_mark();
        other.content().renew_mark();
        take_grid();
        other.take_grid();
    }
    /// Whether the two have one resolution and the same value for each voxel.
    bool operator==(const OcTree &other) const {
        if (edge() != other.edge()) return false;
        const auto kept = content().leaves(), others = other.content().leaves();
        const view<block> mine = kept->blocks(), theirs = others->blocks();
        return std::equal(mine.begin(), mine.end(), theirs.begin(), theirs.end(),
                          [](const block &a, const block &b) {
                              return a.depth == b.depth && a.x == b.x && a.y == b.y &&
                                     a.z == b.z && a.value == b.value;
                          });
    }
    bool operator!=(const OcTree &other) const { return !(*this == other); }

    // -- files. Those that can't be read or written are answered by false.

    /// Makes the map that of its classes, and writes it, as the library does.
    bool writeBinary(std::ostream &out) {
        toMaxLikelihood();
        return writeBinaryConst(out);
    }
    bool writeBinary(const std::string &file) {
        toMaxLikelihood();
        return writeBinaryConst(file);
    }
    bool writeBinaryConst(std::ostream &out) const {
        return detail::put(out, exact_map().save(), 0);
    }
    bool writeBinaryConst(const std::string &file) const {
        return detail::put_file(file, exact_map().save());
    }
    /// The records alone, as messages have them.
    std::ostream &writeBinaryData(std::ostream &out) const {
        const bytes file = exact_map().save();
        detail::put(out, file, detail::data_of(file));
        return out;
    }
    /// Reads the bytes of one map, and takes its resolution.
    bool readBinary(std::istream &in) { return load(detail::tree_of(in)); }
    bool readBinary(const std::string &file) {
        std::ifstream in(file, std::ios::binary);
        return readBinary(in);
    }
    /// Records alone, of a map with this resolution; none are an unknown map. The stream fails
    /// where they can't be read.
    std::istream &readBinaryData(std::istream &in) {
        bytes records;
        if (in && in.peek() != std::istream::traits_type::eof()) detail::add_records(in, records);
        if (!load(detail::with_header(records, edge()))) in.setstate(std::ios::failbit);
        return in;
    }
    /// An .ot file with the values, for the library.
    bool write(std::ostream &out) const {
        out << "# Octomap OcTree file\n# (feel free to add / change comments, but leave the first "
               "line as it is!)\n#\nid OcTree\nsize " +
                   std::to_string(size()) + "\nres " + detail::decimal(edge()) + "\ndata\n";
        return static_cast<bool>(writeData(out));
    }
    bool write(const std::string &file) const {
        std::ostringstream out;
        write(out);
        const std::string text = out.str();
        return detail::put_file(file, bytes(text.begin(), text.end()));
    }
    std::ostream &writeData(std::ostream &out) const {
        content().values()->write(out);
        return out;
    }
    static OcTree *read(const std::string &) { throw unsupported("read: .ot files"); }
    static OcTree *read(std::istream &) { throw unsupported("read: .ot files"); }
    std::istream &readData(std::istream &) { throw unsupported("readData: the data of .ot files"); }

  private:
    bool load(const bytes &file) {
        const bool is_read = content().load(file);
        take_grid();
        return is_read;
    }
};

/// So that casts of what read() returns compile.
using AbstractOcTree = OcTree;
using AbstractOccupancyOcTree = OcTree;

} // namespace octofix

#endif // C++17
#endif
