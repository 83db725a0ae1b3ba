// octofix_octomap.hpp: random maps as octomap::OcTree and back, what can't be a map, and .ot files
// that the OctoMap library has written. The first word names a folder for these files.
#include <octofix_octomap.hpp>

#include <octomap/ColorOcTree.h>
#include <octomap/OcTreeStamped.h>

#include <clocale>
#include <cstdio>
#include <limits>
#include <locale>
#include <random>

namespace {

int failed;

#define EXPECT(what) expect(__LINE__, #what, what)

void expect(int line, const char *what, bool is_so) {
    if (is_so) return;
    ++failed;
    std::printf("line %d: not so: %s\n", line, what);
}

/// The name by which a call is refused, or none.
template <class Call> std::string name_of(Call call) {
    try {
        call();
    } catch (const octofix::not_a_map &error) {
        return error.name();
    } catch (const octofix::refused &error) {
        return error.name();
    }
    return "none";
}

bool are_same(const octofix::map &one, const octofix::map &other) {
    return one.snapshot() == other.snapshot();
}

class drawer {
  public:
    explicit drawer(unsigned seed) : random_(seed) {}
    std::int32_t number(std::int32_t low, std::int32_t high) {
        return std::uniform_int_distribution<std::int32_t>(low, high)(random_);
    }
    octofix::point place() {
        const auto coordinate = [this] { return number(-16, 15) * 0.1 + 0.05; };
        return octofix::metres(coordinate(), coordinate(), coordinate());
    }

  private:
    std::mt19937 random_;
};

octofix::map drawn(unsigned seed) {
    drawer draw(seed);
    const octofix::odds odds = {847, -405, draw.number(-3000, -2000), 3511,
                                draw.number(-1, 1) * 200};
    octofix::map map(0.1, odds);
    for (int i = draw.number(0, 60); i > 0; --i) {
        const octofix::point a = draw.place(), b = draw.place();
        const auto [low_x, high_x] = std::minmax(a.x, b.x);
        const auto [low_y, high_y] = std::minmax(a.y, b.y);
        const auto [low_z, high_z] = std::minmax(a.z, b.z);
        if (draw.number(0, 3) == 0)
            map.edit_box({low_x, low_y, low_z}, {high_x, high_y, high_z},
                         draw.number(0, 4) ? octofix::event::set : octofix::event::forget,
                         draw.number(-2000, 2000));
        else
            map.edit(a, draw.number(0, 1) ? octofix::event::add : octofix::event::set,
                     draw.number(-1000, 1000), draw.number(0, 1));
    }
    return map;
}

/// Leaf for leaf: each voxel's value there is the float nearest to the one here.
void expect_leaves(const octofix::map &map, const octomap::OcTree &tree) {
    const auto leaves = map.leaves();
    EXPECT(tree.getNumLeafNodes() == leaves.size());
    for (const octofix::block &leaf : leaves) {
        const octofix::voxel_key at = octofix::low(leaf);
        const octomap::OcTreeNode *node = tree.search(octomap::OcTreeKey(at.x, at.y, at.z));
        EXPECT(node != nullptr && node->getLogOdds() == static_cast<float>(leaf.value / 1000.0));
        EXPECT(node != nullptr && tree.isNodeOccupied(node) == map.is_occupied(leaf.value));
    }
}

void try_random_maps(unsigned count) {
    for (unsigned seed = 0; seed < count; ++seed) {
        const octofix::map map = drawn(seed);
        octomap::OcTree tree(1);
        octofix::to_octomap(map, tree);
        EXPECT(tree.getResolution() == 0.1);
        expect_leaves(map, tree);
        EXPECT(are_same(octofix::from_octomap(tree), map));
        if (seed % 5 == 0 && tree.getNumLeafNodes() < 3000) {
            tree.expand(); // which changes no voxel
            EXPECT(are_same(octofix::from_octomap(tree), map));
        }
    }
}

void try_whole_maps() {
    octofix::map map(0.1);
    octomap::OcTree tree(1);
    tree.updateNode(octomap::point3d(0, 0, 0), true);
    octofix::to_octomap(map, tree);
    EXPECT(tree.getRoot() == nullptr);
    EXPECT(tree.size() == 0);
    EXPECT(are_same(octofix::from_octomap(tree), map));
    const std::int64_t edge = 100000000, far = 32768 * edge;
    map.edit_box({-far, -far, -far}, {far - 1, far - 1, far - 1}, octofix::event::set, 77);
    octofix::to_octomap(map, tree);
    EXPECT(tree.size() == 1);
    EXPECT(tree.getRoot()->getLogOdds() == 0.077f);
    EXPECT(are_same(octofix::from_octomap(tree), map));
}

/// Values that no float is exact at, beyond what a probability can hold.
void try_far_odds() {
    octofix::map map(0.1, {1000000, -1000000, -1000000, 1000000, 999999});
    map.set(octofix::metres(0, 0, 0), 999999);
    map.set(octofix::metres(1, 0, 0), -999999);
    octomap::OcTree tree(1);
    octofix::to_octomap(map, tree);
    EXPECT(tree.isNodeOccupied(tree.search(0, 0, 0)));
    EXPECT(are_same(octofix::from_octomap(tree), map));
}

/// A tree of another depth, as another version of the library might have.
struct shallow_tree : octomap::OcTree {
    shallow_tree() : octomap::OcTree(0.1) { const_cast<unsigned &>(tree_depth) = 10; }
};

void try_refusals() {
    const auto refusal = [](const octomap::AbstractOcTree &tree) {
        return name_of([&] { octofix::from_octomap(tree); });
    };
    EXPECT(refusal(octomap::ColorOcTree(0.1)) == "OtherTree");
    EXPECT(refusal(octomap::OcTreeStamped(0.1)) == "OtherTree");
    EXPECT(refusal(shallow_tree()) == "OtherDepth");
    EXPECT(refusal(octomap::OcTree(0.00001)) == "BadResolution");
    octomap::OcTree tree(0.1);
    EXPECT(refusal(tree) == "none");
    tree.updateNode(octomap::point3d(0, 0, 0), true);
    for (const float value : {std::numeric_limits<float>::quiet_NaN(), 1e30f, 3.6f, -2.1f,
                              -std::numeric_limits<float>::infinity()}) {
        tree.search(0, 0, 0)->setLogOdds(value);
        EXPECT(refusal(tree) == "BadValue");
    }
    octomap::OcTree surer(0.1);
    surer.setOccupancyThres(0.999); // above the upper bound, 0.971
    EXPECT(refusal(surer) == "BadModel");
}

void write(const std::string &path, const std::string &content) {
    std::ofstream(path, std::ios::binary) << content;
}

void try_ot_files(const std::string &folder) {
    const std::string path = folder + "/map.ot";
    const auto refusal = [&](const std::string &content) {
        write(path, content);
        return name_of([&] { octofix::read_ot(path); });
    };
    octomap::OcTree tree(0.1);
    EXPECT(tree.write(path));
    EXPECT(octofix::read_ot(path).leaves().empty());
    for (int i = 0; i < 30; ++i)
        for (int j = 0; j <= i % 4; ++j)
            tree.updateNode(octomap::point3d(0.1f * static_cast<float>(i), 0, 0), i % 3 != 0);
    EXPECT(tree.write(path));
    EXPECT(are_same(octofix::read_ot(path), octofix::from_octomap(tree)));
    std::ostringstream stream;
    EXPECT(tree.write(stream));
    const std::string whole = stream.str();
    const std::size_t data = whole.find("\ndata\n") + 6;
    EXPECT(refusal(whole + "x") == "TrailingBytes");
    EXPECT(refusal(whole.substr(0, whole.size() - 1)) == "Truncated");
    EXPECT(refusal(whole.substr(0, data)) == "Truncated");
    EXPECT(refusal(whole.substr(0, data - 1)) == "MissingField");
    EXPECT(refusal("") == "NotOctomap");
    EXPECT(refusal("# Octomap OcTree binary file\n") == "NotOctomap");
    std::string deep = whole.substr(0, data);
    for (int i = 0; i < 18; ++i) deep += std::string("\0\0\0\0\1", 5);
    EXPECT(refusal(deep) == "TooDeep");
    std::ostringstream coloured;
    EXPECT(octomap::ColorOcTree(0.1).write(coloured));
    EXPECT(refusal(coloured.str()) == "WrongId");
    tree.search(0, 0, 0)->setLogOdds(7.5f); // as of a tree with wider bounds
    EXPECT(tree.write(path));
    EXPECT(octofix::read_ot(path).get(octofix::metres(0, 0, 0)) == 7500);
    EXPECT(refusal(whole.substr(0, data - 9) + "0.1x\ndata\n") == "BadField");
    EXPECT(refusal(whole.substr(0, data - 9) + "-0.1\ndata\n") == "BadField");
}

/// A stream that can't go back, as a pipe, is read whole.
void try_pipes() {
    class pipe : public std::stringbuf {
      public:
        using std::stringbuf::stringbuf;

      protected:
        pos_type seekoff(off_type, std::ios_base::seekdir, std::ios_base::openmode) override {
            return pos_type(off_type(-1));
        }
        pos_type seekpos(pos_type, std::ios_base::openmode) override {
            return pos_type(off_type(-1));
        }
    };
    octomap::OcTree tree(0.1);
    for (int i = 0; i < 9; ++i) tree.updateNode(octomap::point3d(0.1f * i, 0, 0), i % 2 == 0);
    std::ostringstream file;
    EXPECT(tree.write(file));
    pipe whole(file.str()), cut(file.str().substr(0, file.str().size() - 1)), none("");
    std::istream in(&whole), short_in(&cut), empty(&none);
    EXPECT(are_same(octofix::read_ot(in), octofix::from_octomap(tree)));
    EXPECT(name_of([&] { octofix::read_ot(short_in); }) == "Truncated");
    EXPECT(name_of([&] { octofix::read_ot(empty); }) == "NotOctomap");
}

/// A program whose locale has a comma, in C and in C++, reads files as others do.
void try_locales(const std::string &folder) {
    const std::string path = folder + "/map.ot";
    octomap::OcTree tree(0.05);
    tree.updateNode(octomap::point3d(1, 0, 0), true);
    EXPECT(tree.write(path));
    struct comma : std::numpunct<char> {
        char do_decimal_point() const override { return ','; }
    };
    for (const char *name : {"de_DE.UTF-8", "fr_FR.UTF-8"}) std::setlocale(LC_NUMERIC, name);
    std::locale::global(std::locale(std::locale(), new comma));
    EXPECT(octofix::read_ot(path).settings().res == 50000000);
    std::locale::global(std::locale::classic());
    std::setlocale(LC_NUMERIC, "C");
}

} // namespace

int main(int count, char **words) {
    if (count != 2) return 2;
    try_random_maps(200);
    try_whole_maps();
    try_far_odds();
    try_refusals();
    try_ot_files(words[1]);
    try_pipes();
    try_locales(words[1]);
    std::printf("bridge: %d failed\n", failed);
    return failed != 0;
}
