// Point clouds, as the OctoMap library has them. Part of octofix_octree.hpp.
#ifndef OCTOFIX_OCTREE_CLOUD_HPP
#define OCTOFIX_OCTREE_CLOUD_HPP

#include "octree_math.hpp"

#include <algorithm>
#include <cstddef>
#include <cstdint>
#include <iterator>
#include <random>

namespace octofix {

class Pointcloud {
  public:
    using iterator = point3d_collection::iterator;
    using const_iterator = point3d_collection::const_iterator;

    Pointcloud() = default;
    /// Copies keep the points, and no frame.
    Pointcloud(const Pointcloud &other) : points_(other.points_) {}
    Pointcloud(Pointcloud *other) : points_(other->points_) {}
    Pointcloud &operator=(const Pointcloud &other) = default;

    std::size_t size() const { return points_.size(); }
    void clear() { points_.clear(); }
    void reserve(std::size_t size) { points_.reserve(size); }
    void push_back(float x, float y, float z) { points_.emplace_back(x, y, z); }
    void push_back(const point3d &p) { points_.push_back(p); }
    void push_back(point3d *p) { points_.push_back(*p); }
    void push_back(const Pointcloud &other) {
        points_.insert(points_.end(), other.begin(), other.end());
    }

    iterator begin() { return points_.begin(); }
    iterator end() { return points_.end(); }
    const_iterator begin() const { return points_.begin(); }
    const_iterator end() const { return points_.end(); }
    point3d back() const { return points_.back(); }
    point3d getPoint(unsigned i) const { return points_.at(i); }
    const point3d &operator[](std::size_t i) const { return points_[i]; }
    point3d &operator[](std::size_t i) { return points_[i]; }

    void transform(const pose6d &frame) {
        for (point3d &p : points_) p = frame.transform(p);
        undoing_ = frame.inv();
    }
    /// Moves the points by the way from the frame of the last move to this one.
    void transformAbsolute(const pose6d &frame) {
        const pose6d way = undoing_ * frame;
        for (point3d &p : points_) p = way.transform(p);
        undoing_ = frame.inv();
    }
    void rotate(double roll, double pitch, double yaw) {
        for (point3d &p : points_) p.rotate_IP(roll, pitch, yaw);
    }
    /// The corners of the smallest box that holds the points.
    void calcBBX(point3d &lower, point3d &upper) const {
        if (points_.empty()) return;
        lower = upper = points_.front();
        for (const point3d &p : points_)
            for (unsigned i = 0; i < 3; ++i) {
                lower(i) = std::min(lower(i), p(i));
                upper(i) = std::max(upper(i), p(i));
            }
    }
    /// Adds points that are drawn from these to a cloud.
    void subSampleRandom(unsigned count, Pointcloud &sample) const {
        std::sample(begin(), end(), std::back_inserter(sample.points_), count,
                    std::mt19937(std::random_device()()));
    }
    /// Keeps the points of a box.
    void crop(const point3d &lower, const point3d &upper) {
        keep([&](const point3d &p) {
            return p.x() >= lower.x() && p.x() <= upper.x() && p.y() >= lower.y() &&
                   p.y() <= upper.y() && p.z() >= lower.z() && p.z() <= upper.z();
        });
    }
    /// Keeps the points that are farther than this from the origin.
    void minDist(double distance) {
        keep([&](const point3d &p) { return p.norm() > distance; });
    }

    /// Adds the points of a text, three numbers each, to its end or to what is none.
    std::istream &read(std::istream &in) {
        for (float x, y, z; in >> x >> y >> z;) push_back(x, y, z);
        return in;
    }
    std::istream &readBinary(std::istream &in) {
        std::uint32_t count = 0;
        detail::get_number(in, count);
        for (point3d p; count > 0 && p.readBinary(in); --count) push_back(p);
        return in;
    }
    std::ostream &writeBinary(std::ostream &out) const {
        detail::put_number(out, static_cast<std::uint32_t>(size()));
        for (const point3d &p : points_) p.writeBinary(out);
        return out;
    }

  private:
    template <class Test> void keep(Test test) {
        points_.erase(std::remove_if(points_.begin(), points_.end(),
                                     [&](const point3d &p) { return !test(p); }),
                      points_.end());
    }

    point3d_collection points_;
    pose6d undoing_; // the inverse of the last frame
};

} // namespace octofix

#endif
