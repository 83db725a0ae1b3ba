// A hall of 20 m by 12 m by 3 m with twelve pillars and a table, and scans of it by a sensor that
// goes through its middle: the map that the examples of planning plan in.
#ifndef HALL_HPP
#define HALL_HPP

#include <octofix.hpp>

#include <algorithm>
#include <array>
#include <cmath>
#include <random>
#include <vector>

using place = std::array<double, 3>; // x, y and z in metres

struct solid {
    place low, high;
};

/// Places that lie in a box, each as likely as another.
class places {
  public:
    explicit places(unsigned seed) : random_(seed) {}
    double between(double low, double high) {
        return std::uniform_real_distribution<double>(low, high)(random_);
    }
    place in(const solid &box) {
        return {between(box.low[0], box.high[0]), between(box.low[1], box.high[1]),
                between(box.low[2], box.high[2])};
    }

  private:
    std::mt19937 random_;
};

inline const solid walls = {{-10.013, -6.017, -0.011}, {10.013, 6.017, 3.013}};

inline std::vector<solid> obstacles() {
    std::vector<solid> all = {{{1.13, 0.97, 0.71}, {3.11, 2.03, 0.79}}}; // the table
    for (int i = 0; i < 4; ++i)
        for (int j = 0; j < 3; ++j) {
            const double x = -7.53 + 5 * i, y = -4.27 + 4 * j;
            all.push_back({{x, y, 0}, {x + 0.61, y + 0.47, 3.01}});
        }
    return all;
}

/// How far a beam from a place in a direction goes until a wall or an obstacle stops it.
inline double reach(const place &from, const place &way, const std::vector<solid> &solids) {
    double nearest = 1e9;
    for (int i = 0; i < 3; ++i) {
        const double wall = way[i] > 0 ? walls.high[i] : walls.low[i];
        nearest = std::min(nearest, (wall - from[i]) / way[i]);
    }
    for (const solid &it : solids) {
        double in = 0, out = 1e9;
        for (int i = 0; i < 3; ++i) {
            const double a = (it.low[i] - from[i]) / way[i], b = (it.high[i] - from[i]) / way[i];
            in = std::max(in, std::min(a, b));
            out = std::min(out, std::max(a, b));
        }
        if (in > 0 && in < out) nearest = std::min(nearest, in);
    }
    return nearest;
}

/// The map of twenty scans of so many points each.
inline octofix::map scanned_hall(double res, int points = 20000) {
    constexpr int scans = 20;
    octofix::map world(res);
    const std::vector<solid> solids = obstacles();
    places random(11);
    octofix::scan_options options;
    options.range = 12;
    for (int scan = 0; scan < scans; ++scan) {
        const place sensor = {-9 + 18.0 * scan / (scans - 1), 2.1 * std::sin(scan), 1.2};
        std::vector<octofix::point> ends;
        for (int i = 0; i < points; ++i) {
            const double turn = random.between(0, 6.283185307), z = random.between(-0.95, 0.95);
            const double flat = std::sqrt(1 - z * z);
            const place way = {flat * std::cos(turn), flat * std::sin(turn), z};
            const double far = reach(sensor, way, solids);
            ends.push_back(octofix::metres(sensor[0] + far * way[0], sensor[1] + far * way[1],
                                           sensor[2] + far * way[2]));
        }
        world.scan_from(octofix::metres(sensor[0], sensor[1], sensor[2]), ends, options);
    }
    return world;
}

#endif
