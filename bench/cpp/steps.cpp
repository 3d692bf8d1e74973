// Step beside the plain loop over the poses of a motion and the walls, by the steps of the motion and the walls.
#include "measure.h"
#include "tables.h"

static const size_t MOTIONS = 32;

// The quotient, rounded down, also below zero. The divisor is above 0.
static int floor_div(int a, int b) { return a >= 0 ? a / b : -((b - 1 - a) / b); }

static bool contains(const Wall &wall, const Pose &pose) {
    for (int j = 0; j < 6; j++)
        if ((pose.angles[j] - wall.arcs[j].start + 4096) % 4096 > wall.arcs[j].extent) return false;
    return true;
}

static bool in_no_wall(const std::vector<Wall> &walls, const Pose &pose) {
    for (const Wall &wall : walls)
        if (contains(wall, pose)) return false;
    return true;
}

static bool plain_step(const std::vector<Wall> &walls, const Motion &motion) {
    const uint16_t *from = motion.from.angles, *to = motion.to.angles;
    int turns[6], steps = 0;
    for (int j = 0; j < 6; j++) {
        turns[j] = turn(from[j], to[j]);
        steps = std::max(steps, std::abs(turns[j]));
    }
    for (int t = 0; t <= steps; t++) {
        Pose pose;
        for (int j = 0; j < 6; j++) pose.angles[j] = uint16_t((from[j] + (steps == 0 ? 0 : floor_div(turns[j] * t, steps)) + 4096) % 4096);
        if (!in_no_wall(walls, pose)) return false;
    }
    return true;
}

// Walls and motions, the same in every run.
class Scene {
    std::mt19937 random{20260};

    int below(int limit) { return int(random() % uint32_t(limit)); }

public:
    // Each arc has less than this extent.
    std::vector<Wall> walls(size_t count, int extent) {
        std::vector<Wall> all(count);
        for (Wall &wall : all)
            for (Arc &arc : wall.arcs) arc = {uint16_t(below(4096)), uint16_t(below(extent))};
        return all;
    }

    // A motion of so many steps: one joint turns as far, and the others no farther.
    Motion motion(int steps) {
        Motion m;
        int longest = below(6);
        for (int j = 0; j < 6; j++) {
            int from = below(4096), turned = j == longest ? (below(2) ? steps : -steps) : below(2 * steps + 1) - steps;
            m.from.angles[j] = uint16_t(from);
            m.to.angles[j] = uint16_t((from + turned + 4096) % 4096);
        }
        return m;
    }

    std::vector<Motion> motions(int steps) {
        std::vector<Motion> all;
        for (size_t i = 0; i < MOTIONS; i++) all.push_back(motion(steps));
        return all;
    }
};

static void compare(const std::string &kind, const std::vector<Wall> &walls, const std::vector<Motion> &motions, int steps) {
    uint32_t ours = 0, theirs = 0;
    Costs our_costs = measured({STEP}, [&](uint32_t rounds) { ours = our_step(walls.data(), walls.size(), motions.data(), motions.size(), rounds) / rounds; });
    Costs plain = measured({STEP}, [&](uint32_t rounds) {
        theirs = 0;
        stretch_begins(STEP);
        for (uint32_t r = 0; r < rounds; r++)
            for (const Motion &motion : motions) theirs += plain_step(walls, motion);
        stretch_ends(STEP);
        theirs /= rounds;
    });
    std::string row = kind + "|" + std::to_string(walls.size()) + "|" + with_commas(size_t(steps));
    tell_cost("steps", row, "ours", our_costs, STEP, MOTIONS);
    tell_cost("steps", row, "plain loop", plain, STEP, MOTIONS);
    tell("steps", row, "pass", std::to_string(theirs) + " of " + std::to_string(MOTIONS) + (ours == theirs ? "" : ", and not " + std::to_string(ours)));
}

void tables_of_steps() {
    for (auto [kind, extent] : {std::pair<const char *, int>{"small", 1200}, {"large", 3600}})
        for (int count : {1, 16, 64})
            for (int steps : {16, 256, 2048}) {
                Scene scene;
                std::vector<Wall> walls = scene.walls(size_t(count), extent);
                compare(kind, walls, scene.motions(steps), steps);
            }
}
