// The methods of OcTree that show what the map holds: sizes, nodes, iterators. Part of
// octofix_octree.hpp.
#ifndef OCTOFIX_OCTREE_BASE_HPP
#define OCTOFIX_OCTREE_BASE_HPP

#include "octree_content.hpp"
#include "octree_iterators.hpp"

#include <cmath>
#include <cstddef>
#include <memory>
#include <optional>
#include <string>
#include <utility>

namespace octofix {

class OcTreeBase : public OcTreeGrid {
  public:
    using NodeType = OcTreeNode;
    using leaf_iterator = OcTreeLeafIterator;
    using iterator = OcTreeLeafIterator;
    using leaf_bbx_iterator = OcTreeLeafBoxIterator;
    using tree_iterator = OcTreeNodeIterator;
    using iterator_base = OcTreePlace;

    std::string getTreeType() const { return "OcTree"; }

    // -- sizes

    std::size_t size() const { return content_->least_tree().nodes; }
    std::size_t calcNumNodes() const { return size(); }
    std::size_t getNumLeafNodes() const { return content_->least_tree().leaves; }
    std::size_t memoryUsage() const { return sizeof(*this) + exact_map().memory(); }
    std::size_t memoryUsageNode() const { return 8; }
    unsigned long long memoryFullGrid() const {
        double x, y, z;
        getMetricSize(x, y, z);
        const double res = getResolution();
        return static_cast<unsigned long long>(x / res * (y / res) * (z / res) * sizeof(float));
    }
    void getMetricMin(double &x, double &y, double &z) const { corners(&x, &y, &z, true); }
    void getMetricMax(double &x, double &y, double &z) const { corners(&x, &y, &z, false); }
    void getMetricSize(double &x, double &y, double &z) const {
        double min[3];
        getMetricMin(min[0], min[1], min[2]);
        getMetricMax(x, y, z);
        x -= min[0], y -= min[1], z -= min[2];
    }
    double volume() const {
        double x, y, z;
        getMetricSize(x, y, z);
        return x * y * z;
    }

    // -- nodes

    OcTreeNode *search(const OcTreeKey &key, unsigned depth = 0) const {
        return content_->find(key, depth == 0 ? detail::depth_of_voxels : depth);
    }
    OcTreeNode *search(const point3d &p, unsigned depth = 0) const {
        OcTreeKey key;
        return coordToKeyChecked(p, key) ? search(key, depth) : nullptr;
    }
    OcTreeNode *search(double x, double y, double z, unsigned depth = 0) const {
        OcTreeKey key;
        return coordToKeyChecked(x, y, z, key) ? search(key, depth) : nullptr;
    }
    OcTreeNode *getRoot() const { return content_->values()->root(); }
    bool nodeHasChildren(const OcTreeNode *node) const {
        return content_->children_of(*node) != nullptr;
    }
    bool nodeChildExists(const OcTreeNode *node, unsigned i) const {
        return getNodeChild(node, i) != nullptr;
    }
    OcTreeNode *getNodeChild(const OcTreeNode *node, unsigned i) const {
        std::array<OcTreeNode, 8> *children = content_->children_of(*node);
        return children ? OcTreeValues::known(children->at(i)) : nullptr;
    }
    bool isNodeCollapsible(const OcTreeNode *) const { return false; }
    /// The middles of the unknown blocks of a depth in a box.
    inline void getUnknownLeafCenters(point3d_list &centers, point3d pmin, point3d pmax,
                                      unsigned depth = 0) const;

    // -- iterators; depth 0 is that of voxels

    leaf_iterator begin(unsigned char depth = 0) const { return begin_leafs(depth); }
    leaf_iterator end() const { return {}; }
    leaf_iterator begin_leafs(unsigned char depth = 0) const {
        return {*this, content_->leaves(), depth};
    }
    leaf_iterator end_leafs() const { return {}; }
    leaf_bbx_iterator begin_leafs_bbx(const OcTreeKey &min, const OcTreeKey &max,
                                      unsigned char depth = 0) const {
        return {*this, content_->leaves_in(min, max, depth), depth, min, max};
    }
    leaf_bbx_iterator begin_leafs_bbx(const point3d &min, const point3d &max,
                                      unsigned char depth = 0) const {
        OcTreeKey low, high;
        if (!coordToKeyChecked(min, low) || !coordToKeyChecked(max, high)) return {};
        return begin_leafs_bbx(low, high, depth);
    }
    leaf_bbx_iterator end_leafs_bbx() const { return {}; }
    tree_iterator begin_tree(unsigned char depth = 0) const {
        return {*this, content_->values(), depth};
    }
    tree_iterator end_tree() const { return {}; }

    // -- the map

    /// Makes the leaves as large as they can be.
    void prune() { content_->prune(); }
    /// Shows each leaf as its voxels from now on, until prune: the map itself stays as small.
    void expand() { content_->expand(); }
    void clear() { content_->clear(); }
    /// Gives each voxel another edge, in the grid's own coordinates.
    void setResolution(double resolution) {
        content_->rebuild(detail::edge_of(resolution), content_->bounds());
        take_grid();
    }
    /// The map itself, for a call of octofix.hpp that only asks.
    const map &exact_map() const { return content_->exact_map(); }

    // -- what can't be had: the form of the tree, and the library's tables of surfaces

    OcTreeNode *createNodeChild(OcTreeNode *, unsigned) = delete;
    void deleteNodeChild(OcTreeNode *, unsigned) = delete;
    void expandNode(OcTreeNode *) = delete;
    bool pruneNode(OcTreeNode *) = delete;
    bool getNormals(const point3d &, std::vector<point3d> &, bool = true) const = delete;

  protected:
    explicit OcTreeBase(std::unique_ptr<OcTreeContent> content)
        : OcTreeGrid(content->grid()), content_(std::move(content)) {}
    ~OcTreeBase() = default;

    OcTreeContent &content() const { return *content_; }
    /// Takes over the edge that the map has now.
    void take_grid() { static_cast<OcTreeGrid &>(*this) = content_->grid(); }
    /// Has the content of another tree, which has this one's.
    void swap_content(OcTreeBase &other) {
        std::swap(static_cast<OcTreeGrid &>(*this), static_cast<OcTreeGrid &>(other));
        std::swap(content_, other.content_);
    }

  private:
    void corners(double *x, double *y, double *z, bool is_min) const {
        const std::optional<box> known = exact_map().bounds();
        const voxel_key at = known ? (is_min ? known->low : known->high) : voxel_key{};
        const auto face = [&](key_type k) {
            return known ? (k - 32768 + (is_min ? 0 : 1)) * getResolution() : 0.0;
        };
        *x = face(at.x), *y = face(at.y), *z = face(at.z);
    }

    std::unique_ptr<OcTreeContent> content_; // never null
};

inline void OcTreeBase::getUnknownLeafCenters(point3d_list &centers, point3d pmin, point3d pmax,
                                              unsigned depth) const {
    if (depth == 0) depth = detail::depth_of_voxels;
    const point3d low = keyToCoord(coordToKey(pmin, depth), depth);
    const point3d high = keyToCoord(coordToKey(pmax, depth), depth);
    const float step = static_cast<float>(getNodeSize(depth));
    unsigned steps[3];
    for (unsigned axis = 0; axis < 3; ++axis) {
        const float count = std::floor((high(axis) - low(axis)) / step);
        steps[axis] = count > 0 ? static_cast<unsigned>(count) : 0;
    }
    point3d p = low;
    for (unsigned x = 0; x < steps[0]; ++x, p.y() = low.y()) {
        p.x() += step;
        for (unsigned y = 0; y < steps[1]; ++y, p.z() = low.z()) {
            p.y() += step;
            for (unsigned z = 0; z < steps[2]; ++z) {
                p.z() += step;
                if (!search(p, depth)) centers.push_back(p);
            }
        }
    }
}

inline OcTreeLeafIterator::OcTreeLeafIterator(const OcTreeBase *tree, unsigned char depth)
    : OcTreeLeafIterator(tree->begin_leafs(depth)) {}
inline OcTreeLeafBoxIterator::OcTreeLeafBoxIterator(const OcTreeBase *tree, const OcTreeKey &min,
                                                    const OcTreeKey &max, unsigned char depth)
    : OcTreeLeafBoxIterator(tree->begin_leafs_bbx(min, max, depth)) {}
inline OcTreeLeafBoxIterator::OcTreeLeafBoxIterator(const OcTreeBase *tree, const point3d &min,
                                                    const point3d &max, unsigned char depth)
    : OcTreeLeafBoxIterator(tree->begin_leafs_bbx(min, max, depth)) {}
inline OcTreeNodeIterator::OcTreeNodeIterator(const OcTreeBase *tree, unsigned char depth)
    : OcTreeNodeIterator(tree->begin_tree(depth)) {}

} // namespace octofix

#endif
