// The methods of OcTree that change what is known: updates, scans, the model of a sensor, the box
// of scans, and what has changed. Part of octofix_octree.hpp.
#ifndef OCTOFIX_OCTREE_OCCUPANCY_HPP
#define OCTOFIX_OCTREE_OCCUPANCY_HPP

#include "octree_base.hpp"
#include "octree_cloud.hpp"

#include <algorithm>
#include <array>
#include <cstddef>
#include <cstdint>
#include <memory>
#include <utility>
#include <vector>

namespace octofix {

class OcTreeOccupancy : public OcTreeBase {
  public:
    // -- edits. A point outside the map changes nothing, and is answered by a null pointer.

    OcTreeNode *updateNode(const OcTreeKey &key, float logodds, bool lazy = false) {
        return edit_voxel(key, event::add, detail::thousandths(logodds), lazy);
    }
    OcTreeNode *updateNode(const point3d &p, float logodds, bool lazy = false) {
        OcTreeKey key;
        return coordToKeyChecked(p, key) ? updateNode(key, logodds, lazy) : nullptr;
    }
    OcTreeNode *updateNode(double x, double y, double z, float logodds, bool lazy = false) {
        OcTreeKey key;
        return coordToKeyChecked(x, y, z, key) ? updateNode(key, logodds, lazy) : nullptr;
    }
    OcTreeNode *updateNode(const OcTreeKey &key, bool occupied, bool lazy = false) {
        return edit_voxel(key, event::add, occupied ? hit_ : miss_, lazy);
    }
    OcTreeNode *updateNode(const point3d &p, bool occupied, bool lazy = false) {
        OcTreeKey key;
        return coordToKeyChecked(p, key) ? updateNode(key, occupied, lazy) : nullptr;
    }
    OcTreeNode *updateNode(double x, double y, double z, bool occupied, bool lazy = false) {
        OcTreeKey key;
        return coordToKeyChecked(x, y, z, key) ? updateNode(key, occupied, lazy) : nullptr;
    }
    OcTreeNode *setNodeValue(const OcTreeKey &key, float logodds, bool lazy = false) {
        return edit_voxel(key, event::set, detail::thousandths(logodds), lazy);
    }
    OcTreeNode *setNodeValue(const point3d &p, float logodds, bool lazy = false) {
        OcTreeKey key;
        return coordToKeyChecked(p, key) ? setNodeValue(key, logodds, lazy) : nullptr;
    }
    OcTreeNode *setNodeValue(double x, double y, double z, float logodds, bool lazy = false) {
        OcTreeKey key;
        return coordToKeyChecked(x, y, z, key) ? setNodeValue(key, logodds, lazy) : nullptr;
    }
    /// Makes the block unknown that holds the voxel; whether something was known there.
    bool deleteNode(const OcTreeKey &key, unsigned depth = 0) {
        if (depth == 0) depth = detail::depth_of_voxels;
        const bool was_known = search(key, depth) != nullptr;
        content().edit_block(key, depth, event::forget, 0);
        return was_known;
    }
    bool deleteNode(const point3d &p, unsigned depth = 0) {
        OcTreeKey key;
        return coordToKeyChecked(p, key) && deleteNode(key, depth);
    }
    bool deleteNode(double x, double y, double z, unsigned depth = 0) {
        OcTreeKey key;
        return coordToKeyChecked(x, y, z, key) && deleteNode(key, depth);
    }
    void updateNodeLogOdds(OcTreeNode *node, float update) const { node->addValue(update); }
    void integrateHit(OcTreeNode *node) const { node->addValue(getProbHitLog()); }
    void integrateMiss(OcTreeNode *node) const { node->addValue(getProbMissLog()); }
    void nodeToMaxLikelihood(OcTreeNode *node) const {
        node->setLogOdds(isNodeOccupied(node) ? getClampingThresMaxLog()
                                              : getClampingThresMinLog());
    }
    void nodeToMaxLikelihood(OcTreeNode &node) const { nodeToMaxLikelihood(&node); }
    void updateInnerOccupancy() {
        content().change([](map &it) { it.refresh(); });
    }
    void toMaxLikelihood() {
        content().change([](map &it) { it.max_likelihood(); });
    }

    bool isNodeOccupied(const OcTreeNode *node) const { return node->value_ >= bounds().thr; }
    bool isNodeOccupied(const OcTreeNode &node) const { return isNodeOccupied(&node); }
    bool isNodeAtThreshold(const OcTreeNode *node) const {
        return node->value_ >= bounds().max || node->value_ <= bounds().min;
    }
    bool isNodeAtThreshold(const OcTreeNode &node) const { return isNodeAtThreshold(&node); }

    // -- scans. Points that aren't finite or lie outside the map are left out.

    void insertPointCloud(const Pointcloud &scan, const point3d &origin, double maxrange = -1,
                          bool lazy = false, bool discretize = false) {
        if (discretize) return insertPointCloud(discretized(scan), origin, maxrange, lazy);
        insert_scan(scan, origin, maxrange, lazy, use_bbx_);
    }
    void insertPointCloud(const Pointcloud &scan, const point3d &sensor, const pose6d &frame,
                          double maxrange = -1, bool lazy = false, bool discretize = false) {
        Pointcloud moved(scan);
        moved.transform(frame);
        insertPointCloud(moved, frame.transform(sensor), maxrange, lazy, discretize);
    }
    void insertPointCloudRays(const Pointcloud &scan, const point3d &origin, double = -1,
                              bool lazy = false) {
        for (const point3d &end : scan) insertRay(origin, end, -1, lazy);
    }
    /// Does nothing: no rays are kept.
    void clearKeyRays() {}
    /// One beam, which knows of no box; whether it lies in the map.
    inline bool insertRay(const point3d &origin, const point3d &end, double maxrange = -1,
                          bool lazy = false);
    /// The voxels that a scan frees and hits, for updateNode one by one.
    void computeUpdate(const Pointcloud &scan, const point3d &origin, KeySet &free_cells,
                       KeySet &occupied_cells, double maxrange) {
        find_update(scan, origin, free_cells, occupied_cells, maxrange, use_bbx_);
    }
    void computeDiscreteUpdate(const Pointcloud &scan, const point3d &origin, KeySet &free_cells,
                               KeySet &occupied_cells, double maxrange) {
        computeUpdate(discretized(scan), origin, free_cells, occupied_cells, maxrange);
    }

    // -- rays

    /// Whether a ray comes to an occupied voxel; end is the middle of the voxel where it stops.
    inline bool castRay(const point3d &origin, const point3d &direction, point3d &end,
                        bool ignore_unknown = false, double max_range = -1) const;
    /// The voxels that the way from origin to end meets, but for that of the end.
    inline bool computeRayKeys(const point3d &origin, const point3d &end, KeyRay &ray) const;
    inline bool computeRay(const point3d &origin, const point3d &end,
                           std::vector<point3d> &ray) const;
    /// Where a ray enters the voxel with this middle, and so much less.
    inline bool getRayIntersection(const point3d &origin, const point3d &direction,
                                   const point3d &center, point3d &intersection,
                                   double delta = 0) const;

    // -- the model of a sensor: probabilities, kept as thousandths of log-odds; those of 0 and 1
    // are -1000000 and 1000000. Another bound or threshold makes the map anew, at the cost of what
    // is known.

    void setProbHit(double p) { hit_ = held_log_odds(p); }
    void setProbMiss(double p) { miss_ = held_log_odds(p); }
    void setClampingThresMin(double p) { set_bound(&odds::min, p); }
    void setClampingThresMax(double p) { set_bound(&odds::max, p); }
    void setOccupancyThres(double p) { set_bound(&odds::thr, p); }
    double getProbHit() const { return probability(getProbHitLog()); }
    double getProbMiss() const { return probability(getProbMissLog()); }
    double getClampingThresMin() const { return probability(getClampingThresMinLog()); }
    double getClampingThresMax() const { return probability(getClampingThresMaxLog()); }
    double getOccupancyThres() const { return probability(getOccupancyThresLog()); }
    float getProbHitLog() const { return detail::in_log_odds(hit_); }
    float getProbMissLog() const { return detail::in_log_odds(miss_); }
    float getClampingThresMinLog() const { return detail::in_log_odds(bounds().min); }
    float getClampingThresMaxLog() const { return detail::in_log_odds(bounds().max); }
    float getOccupancyThresLog() const { return detail::in_log_odds(bounds().thr); }

    // -- the box to which scans are restricted

    void useBBXLimit(bool enable) { use_bbx_ = enable; }
    bool bbxSet() const { return use_bbx_; }
    void setBBXMin(const point3d &min) { bbx_min_ = min; }
    void setBBXMax(const point3d &max) { bbx_max_ = max; }
    point3d getBBXMin() const { return bbx_min_; }
    point3d getBBXMax() const { return bbx_max_; }
    point3d getBBXBounds() const { return (bbx_max_ - bbx_min_) * 0.5f; }
    point3d getBBXCenter() const { return bbx_min_ + getBBXBounds(); }
    bool inBBX(const point3d &p) const {
        return p.x() >= bbx_min_.x() && p.y() >= bbx_min_.y() && p.z() >= bbx_min_.z() &&
               p.x() <= bbx_max_.x() && p.y() <= bbx_max_.y() && p.z() <= bbx_max_.z();
    }
    bool inBBX(const OcTreeKey &key) const { return box_of_scans().holds(key); }

    // -- changes: voxels that are known and weren't (true), or have turned (false), since the last
    // reset, as far as changes were detected

    void enableChangeDetection(bool enable) {
        if (enable != content().is_tracking()) content().track(enable);
    }
    bool isChangeDetectionEnabled() const { return content().is_tracking(); }
    void resetChangeDetection() { content().forget_changes(); }
    KeyBoolMap::const_iterator changedKeysBegin() const { return content().changed().begin(); }
    KeyBoolMap::const_iterator changedKeysEnd() const { return content().changed().end(); }
    std::size_t numChangesDetected() const { return content().changed().size(); }

  protected:
    explicit OcTreeOccupancy(std::unique_ptr<OcTreeContent> content)
        : OcTreeBase(std::move(content)) {}
    /// With the model and the box of another one.
    OcTreeOccupancy(std::unique_ptr<OcTreeContent> content, const OcTreeOccupancy &other)
        : OcTreeBase(std::move(content)), hit_(other.hit_), miss_(other.miss_),
          use_bbx_(other.use_bbx_), bbx_min_(other.bbx_min_), bbx_max_(other.bbx_max_) {}
    ~OcTreeOccupancy() = default;

    static constexpr odds bounds_at_first = {847, -405, -2000, 3511, 0}; // of 0.1192 and 0.971

    const odds &bounds() const { return content().bounds(); }
    void swap(OcTreeOccupancy &other) {
        swap_content(other);
        std::swap(hit_, other.hit_);
        std::swap(miss_, other.miss_);
        std::swap(use_bbx_, other.use_bbx_);
        std::swap(bbx_min_, other.bbx_min_);
        std::swap(bbx_max_, other.bbx_max_);
    }

  private:
    /// The box of scans, by the numbers of its voxels, which may lie beyond the map.
    struct number_box {
        std::array<std::int64_t, 3> low, high;

        bool holds(const OcTreeKey &key) const {
            for (unsigned axis = 0; axis < 3; ++axis)
                if (key[axis] < low[axis] || key[axis] > high[axis]) return false;
            return true;
        }
    };
    class box_limit;

    number_box box_of_scans() const {
        number_box found{};
        for (unsigned axis = 0; axis < 3; ++axis) {
            found.low[axis] = number_at(bbx_min_(axis));
            found.high[axis] = number_at(bbx_max_(axis));
        }
        return found;
    }

    OcTreeNode *edit_voxel(const OcTreeKey &key, event what, std::int32_t number, bool lazy) {
        content().edit_voxel(key, what, number, lazy);
        return search(key);
    }
    static std::int32_t held_log_odds(double p) {
        return p == 0 ? -1000000 : p == 1 ? 1000000 : log_odds(p);
    }
    void set_bound(std::int32_t odds::*bound, double p) {
        odds other = bounds();
        other.*bound = held_log_odds(p);
        if (other.*bound != bounds().*bound) content().rebuild(edge(), other);
    }

    static point exact(const point3d &p) { return metres(p.x(), p.y(), p.z()); }
    static bool is_in_range(const point3d &origin, const point3d &p, double maxrange) {
        return maxrange < 0 || (p - origin).norm() <= maxrange;
    }
    /// The end of a beam to a point.
    static point3d cut(const point3d &origin, const point3d &p, double maxrange) {
        if (is_in_range(origin, p, maxrange)) return p;
        return origin + (p - origin).normalized() * static_cast<float>(maxrange);
    }
    /// Where a ray ends, at the range or at the border of the map.
    inline point far_end(const point &from, const point3d &direction, double max_range) const;

    /// The first point of each voxel, moved to its middle.
    inline Pointcloud discretized(const Pointcloud &scan) const;
    inline void find_update(const Pointcloud &scan, const point3d &origin, KeySet &free_cells,
                            KeySet &occupied_cells, double maxrange, bool in_box) const;
    inline std::vector<point> ways_of(const Pointcloud &scan, const point3d &origin,
                                      double maxrange, bool in_box) const;
    inline void insert_scan(const Pointcloud &scan, const point3d &origin, double maxrange,
                            bool lazy, bool in_box);
    inline void insert_by_voxels(const Pointcloud &scan, const point3d &origin, double maxrange,
                                 bool lazy, bool in_box);
    inline void hit_ends(const Pointcloud &scan, const point3d &origin, double maxrange, bool lazy,
                         bool in_box);

    std::int32_t hit_ = bounds_at_first.hit, miss_ = bounds_at_first.miss; // of 0.7 and 0.4
    bool use_bbx_ = false;
    point3d bbx_min_, bbx_max_;
};

} // namespace octofix

#include "octree_beams.hpp"

#endif
