// The types of both libraries by one set of names, for tests that make the same calls on both.
#ifndef BOTH_LIBRARIES_HPP
#define BOTH_LIBRARIES_HPP

#include <octofix_octree.hpp>
#include <octomap/OcTree.h>
#include <octomap/octomap.h>

#include <string>

struct Mine {
    using Tree = octofix::OcTree;
    using Node = octofix::OcTreeNode;
    using Key = octofix::OcTreeKey;
    using Point = octofix::point3d;
    using Pose = octofix::pose6d;
    using Turn = octofix::Quaternion;
    using Cloud = octofix::Pointcloud;
    using Keys = octofix::KeySet;
    using Ray = octofix::KeyRay;
    static Key child(unsigned pos, octofix::key_type offset, const Key &parent) {
        Key key;
        octofix::computeChildKey(pos, offset, parent, key);
        return key;
    }
    static int child_of(const Key &key, int bit) { return octofix::computeChildIdx(key, bit); }
    static Key block_of(octofix::key_type level, const Key &key) {
        return octofix::computeIndexKey(level, key);
    }
};

struct Theirs {
    using Tree = octomap::OcTree;
    using Node = octomap::OcTreeNode;
    using Key = octomap::OcTreeKey;
    using Point = octomap::point3d;
    using Pose = octomap::pose6d;
    using Turn = octomath::Quaternion;
    using Cloud = octomap::Pointcloud;
    using Keys = octomap::KeySet;
    using Ray = octomap::KeyRay;
    static Key child(unsigned pos, octomap::key_type offset, const Key &parent) {
        Key key;
        octomap::computeChildKey(pos, offset, parent, key);
        return key;
    }
    static int child_of(const Key &key, int bit) { return octomap::computeChildIdx(key, bit); }
    static Key block_of(octomap::key_type level, const Key &key) {
        return octomap::computeIndexKey(level, key);
    }
};

/// A tree with the log-odds that both have.
template <class L> struct Even : L::Tree {
    explicit Even(double res = 0.1) : L::Tree(res) {
        this->setProbHit(0.7);
        this->setProbMiss(0.4);
    }
};

template <class Key> std::string text_of(const Key &key) {
    return std::to_string(key[0]) + ' ' + std::to_string(key[1]) + ' ' + std::to_string(key[2]);
}

#endif
