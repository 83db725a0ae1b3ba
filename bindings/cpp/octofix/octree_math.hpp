// Points, quaternions, poses and probabilities, as the OctoMap library has them: coordinates are
// float, and metres. Part of octofix_octree.hpp.
#ifndef OCTOFIX_OCTREE_MATH_HPP
#define OCTOFIX_OCTREE_MATH_HPP

#include <array>
#include <cmath>
#include <istream>
#include <list>
#include <ostream>
#include <utility>
#include <vector>

#ifndef DEG2RAD
#define DEG2RAD(x) ((x) * 0.01745329251994329575)
#endif
#ifndef RAD2DEG
#define RAD2DEG(x) ((x) * 57.29577951308232087721)
#endif

namespace octofix {
namespace detail {

// The forms of the OctoMap library's streams: a count and so many numbers, as text, or as an int
// and doubles in the order of this machine's bytes.

template <class Numbers> std::ostream &write_numbers(std::ostream &out, const Numbers &numbers) {
    out << numbers.size();
    for (const double it : numbers) out << ' ' << it;
    return out;
}
template <class Numbers> std::istream &read_numbers(std::istream &in, Numbers &numbers) {
    std::size_t count = 0;
    in >> count;
    if (count != numbers.size()) in.setstate(std::ios::failbit);
    for (double &it : numbers) in >> it;
    return in;
}
template <class Number> void put_number(std::ostream &out, const Number &it) {
    out.write(reinterpret_cast<const char *>(&it), sizeof it);
}
template <class Number> void get_number(std::istream &in, Number &it) {
    in.read(reinterpret_cast<char *>(&it), sizeof it);
}
template <class Numbers> std::ostream &put_numbers(std::ostream &out, const Numbers &numbers) {
    put_number(out, static_cast<int>(numbers.size()));
    for (const double it : numbers) put_number(out, it);
    return out;
}
template <class Numbers> std::istream &get_numbers(std::istream &in, Numbers &numbers) {
    int count = 0;
    get_number(in, count);
    if (count != static_cast<int>(numbers.size())) in.setstate(std::ios::failbit);
    for (double &it : numbers) get_number(in, it);
    return in;
}

} // namespace detail

inline float logodds(double probability) {
    return static_cast<float>(std::log(probability / (1 - probability)));
}
inline double probability(double logodds) { return 1.0 - 1.0 / (1.0 + std::exp(logodds)); }

class Vector3 {
  public:
    Vector3() = default;
    Vector3(float x, float y, float z) : data_{x, y, z} {}

    float &operator()(unsigned i) { return data_[i]; }
    const float &operator()(unsigned i) const { return data_[i]; }
    float &x() { return data_[0]; }
    float &y() { return data_[1]; }
    float &z() { return data_[2]; }
    const float &x() const { return data_[0]; }
    const float &y() const { return data_[1]; }
    const float &z() const { return data_[2]; }
    const float &roll() const { return data_[0]; }
    const float &pitch() const { return data_[1]; }
    const float &yaw() const { return data_[2]; }
    static unsigned size() { return 3; }

    Vector3 operator-() const { return {-x(), -y(), -z()}; }
    Vector3 operator+(const Vector3 &v) const { return {x() + v.x(), y() + v.y(), z() + v.z()}; }
    Vector3 operator-(const Vector3 &v) const { return {x() - v.x(), y() - v.y(), z() - v.z()}; }
    Vector3 operator*(float by) const { return {x() * by, y() * by, z() * by}; }
    Vector3 operator/(float by) const { return {x() / by, y() / by, z() / by}; }
    void operator+=(const Vector3 &v) { *this = *this + v; }
    void operator-=(const Vector3 &v) { *this = *this - v; }
    void operator*=(float by) { *this = *this * by; }
    void operator/=(float by) { *this = *this / by; }
    bool operator==(const Vector3 &v) const { return x() == v.x() && y() == v.y() && z() == v.z(); }
    bool operator!=(const Vector3 &v) const { return !(*this == v); }

    double dot(const Vector3 &v) const { return x() * v.x() + y() * v.y() + z() * v.z(); }
    Vector3 cross(const Vector3 &v) const {
        return {y() * v.z() - z() * v.y(), z() * v.x() - x() * v.z(), x() * v.y() - y() * v.x()};
    }
    double norm_sq() const { return dot(*this); }
    double norm() const { return std::sqrt(norm_sq()); }
    Vector3 &normalize() {
        const double length = norm();
        if (length > 0) *this /= static_cast<float>(length);
        return *this;
    }
    Vector3 normalized() const {
        Vector3 result(*this);
        return result.normalize();
    }
    double angleTo(const Vector3 &v) const { return std::acos(dot(v) / (norm() * v.norm())); }
    double distance(const Vector3 &v) const { return (*this - v).norm(); }
    double distanceXY(const Vector3 &v) const { return std::hypot(x() - v.x(), y() - v.y()); }
    inline Vector3 &rotate_IP(double roll, double pitch, double yaw);

    std::ostream &write(std::ostream &out) const { return detail::write_numbers(out, numbers()); }
    std::istream &read(std::istream &in) { return take(detail::read_numbers<three>, in); }
    std::ostream &writeBinary(std::ostream &out) const {
        return detail::put_numbers(out, numbers());
    }
    std::istream &readBinary(std::istream &in) { return take(detail::get_numbers<three>, in); }

  private:
    using three = std::array<double, 3>;
    three numbers() const { return {x(), y(), z()}; }
    std::istream &take(std::istream &(*reader)(std::istream &, three &), std::istream &in) {
        three came{};
        if (reader(in, came))
            for (unsigned i = 0; i < 3; ++i) data_[i] = static_cast<float>(came[i]);
        return in;
    }

    float data_[3] = {0, 0, 0};
};

inline std::ostream &operator<<(std::ostream &out, const Vector3 &v) {
    return out << '(' << v.x() << ' ' << v.y() << ' ' << v.z() << ')';
}

/// A turn: u is the real part. Its numbers are kept as double.
class Quaternion {
  public:
    Quaternion() = default;
    Quaternion(double u, double x, double y, double z) : data_{u, x, y, z} {}
    /// About x, then y, then z.
    Quaternion(double roll, double pitch, double yaw) {
        const double sr = std::sin(roll / 2), cr = std::cos(roll / 2), sp = std::sin(pitch / 2);
        const double cp = std::cos(pitch / 2), sy = std::sin(yaw / 2), cy = std::cos(yaw / 2);
        data_ = {cr * cp * cy + sr * sp * sy, sr * cp * cy - cr * sp * sy,
                 cr * sp * cy + sr * cp * sy, cr * cp * sy - sr * sp * cy};
    }
    /// Of roll, pitch and yaw.
    Quaternion(const Vector3 &euler) : Quaternion(euler.x(), euler.y(), euler.z()) {}
    /// About an axis, which has to be of length 1.
    Quaternion(const Vector3 &axis, double angle)
        : data_{std::cos(angle / 2), axis.x() * std::sin(angle / 2),
                axis.y() * std::sin(angle / 2), axis.z() * std::sin(angle / 2)} {}

    double &u() { return data_[0]; }
    double &x() { return data_[1]; }
    double &y() { return data_[2]; }
    double &z() { return data_[3]; }
    double u() const { return data_[0]; }
    double x() const { return data_[1]; }
    double y() const { return data_[2]; }
    double z() const { return data_[3]; }
    double &operator()(unsigned i) { return data_[i]; }
    double operator()(unsigned i) const { return data_[i]; }
    bool operator==(const Quaternion &q) const { return data_ == q.data_; }
    bool operator!=(const Quaternion &q) const { return !(*this == q); }

    double norm() const { return std::sqrt(square()); }
    Quaternion &normalize() {
        if (norm() > 0) *this /= norm();
        return *this;
    }
    Quaternion normalized() const {
        Quaternion result(*this);
        return result.normalize();
    }
    void operator/=(double by) {
        for (double &it : data_) it /= by;
    }
    Quaternion inv() const { return {u(), -x(), -y(), -z()}; }
    Quaternion &inv_IP() { return *this = inv(); }
    Quaternion operator*(const Quaternion &q) const {
        return {u() * q.u() - x() * q.x() - y() * q.y() - z() * q.z(),
                u() * q.x() + x() * q.u() + y() * q.z() - z() * q.y(),
                u() * q.y() - x() * q.z() + y() * q.u() + z() * q.x(),
                u() * q.z() + x() * q.y() - y() * q.x() + z() * q.u()};
    }
    /// With a vector as the quaternion of real part 0.
    Quaternion operator*(const Vector3 &v) const { return *this * pure(v); }
    friend Quaternion operator*(const Vector3 &v, const Quaternion &q) { return pure(v) * q; }
    /// Roll, pitch and yaw.
    Vector3 toEuler() const {
        const double s = 2 / square();
        const double down = s * (y() * z() + u() * x());
        const double upright = 1 - s * (x() * x() + y() * y());
        return {static_cast<float>(std::atan2(down, upright)),
                static_cast<float>(
                    std::atan2(s * (u() * y() - x() * z()), std::hypot(down, upright))),
                static_cast<float>(
                    std::atan2(s * (x() * y() + u() * z()), 1 - s * (y() * y() + z() * z())))};
    }
    /// The nine numbers of the matrix, row by row.
    void toRotMatrix(std::vector<double> &matrix) const {
        const double s = square() > 0 ? 2 / square() : 0;
        const double xx = s * x() * x(), yy = s * y() * y(), zz = s * z() * z();
        const double xy = s * x() * y(), xz = s * x() * z(), yz = s * y() * z();
        const double ux = s * u() * x(), uy = s * u() * y(), uz = s * u() * z();
        matrix = {1 - (yy + zz), xy - uz, xz + uy, xy + uz,      1 - (xx + zz),
                  yz - ux,       xz - uy, yz + ux, 1 - (xx + yy)};
    }
    Vector3 rotate(const Vector3 &v) const {
        const Quaternion turned = *this * pure(v) * inv();
        return {static_cast<float>(turned.x() / square()),
                static_cast<float>(turned.y() / square()),
                static_cast<float>(turned.z() / square())};
    }

    std::ostream &write(std::ostream &out) const { return detail::write_numbers(out, data_); }
    std::istream &read(std::istream &in) { return detail::read_numbers(in, data_); }
    std::ostream &writeBinary(std::ostream &out) const { return detail::put_numbers(out, data_); }
    std::istream &readBinary(std::istream &in) { return detail::get_numbers(in, data_); }

  private:
    static Quaternion pure(const Vector3 &v) { return {0, v.x(), v.y(), v.z()}; }
    double square() const { return u() * u() + x() * x() + y() * y() + z() * z(); }

    std::array<double, 4> data_{1, 0, 0, 0};
};

inline std::ostream &operator<<(std::ostream &out, const Quaternion &q) {
    return out << '(' << q.u() << ' ' << q.x() << ' ' << q.y() << ' ' << q.z() << ')';
}

/// About y, then z, then x, which is the order of the OctoMap library.
inline Vector3 &Vector3::rotate_IP(double roll, double pitch, double yaw) {
    const Quaternion about_x(roll, 0.0, 0.0), about_y(0.0, pitch, 0.0), about_z(0.0, 0.0, yaw);
    return *this = (about_x * about_z * about_y).rotate(*this);
}

class Pose6D {
  public:
    Pose6D() = default;
    Pose6D(const Vector3 &trans, const Quaternion &rot) : trans_(trans), rot_(rot) {}
    Pose6D(float x, float y, float z, double roll, double pitch, double yaw)
        : trans_(x, y, z), rot_(roll, pitch, yaw) {}

    Vector3 &trans() { return trans_; }
    Quaternion &rot() { return rot_; }
    const Vector3 &trans() const { return trans_; }
    const Quaternion &rot() const { return rot_; }
    float &x() { return trans_.x(); }
    float &y() { return trans_.y(); }
    float &z() { return trans_.z(); }
    const float &x() const { return trans_.x(); }
    const float &y() const { return trans_.y(); }
    const float &z() const { return trans_.z(); }
    double roll() const { return rot_.toEuler().x(); }
    double pitch() const { return rot_.toEuler().y(); }
    double yaw() const { return rot_.toEuler().z(); }
    double transLength() const { return trans_.norm(); }
    double distance(const Pose6D &p) const { return trans_.distance(p.trans_); }
    Vector3 transform(const Vector3 &v) const { return rot_.rotate(v) + trans_; }
    Pose6D inv() const { return {-rot_.inv().rotate(trans_), rot_.inv()}; }
    Pose6D &inv_IP() { return *this = inv(); }
    Pose6D operator*(const Pose6D &p) const { return {transform(p.trans_), rot_ * p.rot_}; }
    const Pose6D &operator*=(const Pose6D &p) { return *this = *this * p; }
    bool operator==(const Pose6D &p) const { return trans_ == p.trans_ && rot_ == p.rot_; }
    bool operator!=(const Pose6D &p) const { return !(*this == p); }

    std::ostream &write(std::ostream &out) const { return rot_.write(trans_.write(out) << ' '); }
    std::istream &read(std::istream &in) { return rot_.read(trans_.read(in)); }
    std::ostream &writeBinary(std::ostream &out) const {
        return rot_.writeBinary(trans_.writeBinary(out));
    }
    std::istream &readBinary(std::istream &in) { return rot_.readBinary(trans_.readBinary(in)); }

  private:
    Vector3 trans_;
    Quaternion rot_;
};

inline std::ostream &operator<<(std::ostream &out, const Pose6D &p) {
    const Quaternion &q = p.rot();
    return out << '(' << p.x() << ' ' << p.y() << ' ' << p.z() << ", " << q.u() << ' ' << q.x()
               << ' ' << q.y() << ' ' << q.z() << ')';
}

using point3d = Vector3;
using pose6d = Pose6D;
using point3d_collection = std::vector<point3d>;
using point3d_list = std::list<point3d>;
using OcTreeVolume = std::pair<point3d, double>;

} // namespace octofix

#endif
