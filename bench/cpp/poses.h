// Poses of an arm, how far they are apart, and the shapes of the sets of poses that are measured.
#pragma once
#include <algorithm>
#include <array>
#include <cstdint>
#include <cstdlib>
#include <random>
#include <string>
#include <vector>

struct Pose {
    uint16_t angles[6];
};

// How a joint turns from one angle to another: the shorter way round.
inline int turn(uint16_t a, uint16_t b) {
    int d = int(b % 4096) - int(a % 4096);
    return d > 2048 ? d - 4096 : d < -2048 ? d + 4096 : d;
}

inline uint32_t swing(uint16_t a, uint16_t b) { return uint32_t(std::abs(turn(a, b))); }

// The same with no branch, as the library has it.
inline uint32_t quick_swing(uint16_t a, uint16_t b) {
    uint32_t upward = (uint32_t(b) - a) % 4096;
    return std::min(upward, 4096 - upward);
}

template <uint32_t swing_of(uint16_t, uint16_t)> inline uint32_t weighed(const Pose &a, const Pose &b) {
    return 32 * swing_of(a.angles[0], b.angles[0]) + 24 * swing_of(a.angles[1], b.angles[1]) + 16 * swing_of(a.angles[2], b.angles[2])
         + 8 * swing_of(a.angles[3], b.angles[3]) + 4 * swing_of(a.angles[4], b.angles[4]) + 4 * swing_of(a.angles[5], b.angles[5]);
}

inline uint32_t apart(const Pose &a, const Pose &b) { return weighed<swing>(a, b); }
inline uint32_t apart_quickly(const Pose &a, const Pose &b) { return weighed<quick_swing>(a, b); }
using Distance = uint32_t(const Pose &, const Pose &);

// A sample's distance from a query and its number: by distance, and at equal distance by number.
struct Hit {
    uint32_t distance;
    uint16_t number;
    bool operator<(const Hit &other) const {
        return distance < other.distance || (distance == other.distance && number < other.number);
    }
};

// The nearest hits so far, in order: at most so many.
template <size_t MOST> struct Nearest {
    Hit hits[MOST];
    size_t held = 0;

    bool full() const { return held == MOST; }
    uint32_t farthest() const { return hits[MOST - 1].distance; }

    void offer(Hit hit) {
        if (full() && !(hit < hits[MOST - 1])) return;
        size_t at = full() ? MOST - 1 : held++;
        for (; at > 0 && hit < hits[at - 1]; at--) hits[at] = hits[at - 1];
        hits[at] = hit;
    }

    // The numbers and distances, as one number.
    uint32_t digest() const {
        uint32_t sum = 0;
        for (size_t i = 0; i < held; i++) sum = (sum * 1000003u + hits[i].number) * 1000003u + hits[i].distance;
        return sum;
    }
};

enum class Shape { spread_out, clustered, many_ties, line };

inline std::string name_of(Shape shape) {
    switch (shape) {
    case Shape::spread_out: return "spread out";
    case Shape::clustered: return "clustered";
    case Shape::many_ties: return "many ties";
    default: return "line";
    }
}

// Makes poses of a shape, the same in every run.
class Poses {
    std::mt19937 random;
    Shape shape;
    Pose centres[16];
    uint16_t made = 0;

    uint16_t below(uint32_t limit) { return uint16_t(random() % limit); }

    Pose anywhere() {
        Pose p;
        for (auto &a : p.angles) a = below(4096);
        return p;
    }

    Pose near_a_centre() {
        Pose p = centres[below(16)];
        for (auto &a : p.angles) a = uint16_t((a + below(128) + 4096 - 64) % 4096);
        return p;
    }

    Pose on_a_grid() {
        Pose p;
        for (auto &a : p.angles) a = uint16_t(below(4) * 64);
        return p;
    }

    // Along half a turn, so that each pose is nearest to the one before.
    Pose next_on_the_line() { return {{uint16_t(2 * made), 0, 0, 0, 0, 0}}; }

public:
    explicit Poses(Shape shape, uint32_t seed = 20260) : random(seed), shape(shape) {
        for (Pose &centre : centres) centre = anywhere();
    }

    Pose next() {
        Pose p = shape == Shape::spread_out ? anywhere() : shape == Shape::clustered ? near_a_centre() : shape == Shape::many_ties ? on_a_grid() : next_on_the_line();
        made++;
        return p;
    }

    std::vector<Pose> some(size_t count) {
        std::vector<Pose> poses;
        for (size_t i = 0; i < count; i++) poses.push_back(next());
        return poses;
    }
};
