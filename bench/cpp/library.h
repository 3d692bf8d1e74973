// What the library exports for the measuring programs, and what they give to it. A slice is a pointer and a length.
#pragma once
#include "poses.h"

struct Arc {
    uint16_t start, extent;
};
struct Wall {
    Arc arcs[6];
};
struct Motion {
    Pose from, to;
};
// A route from one sample to another, and the island of the first. A count of 0: no answer.
struct Trip {
    uint16_t from, to;
    uint32_t length, count, digest, island;
};

extern "C" {
void our_scan(const Pose *poses, size_t, uint32_t fills, const Pose *queries, size_t, uint32_t rounds, uint32_t *answers, size_t);
bool our_tree(uint32_t degree, uint32_t bucket, const Pose *poses, size_t, uint32_t fills, const Pose *queries, size_t, uint32_t rounds, uint32_t *answers, size_t);
bool our_tree_counted(uint32_t degree, uint32_t bucket, const Pose *poses, size_t, const Pose *queries, size_t, uint32_t *answers, size_t);
bool our_roads(const Pose *poses, size_t, uint32_t k, Trip *trips, size_t, uint32_t rounds);
uint32_t our_step(const Wall *walls, size_t, const Motion *motions, size_t, uint32_t rounds);
size_t our_play(const uint8_t *level, size_t, uint8_t *out, size_t);
void stack_of_scan(const Pose *poses, size_t);
void stack_of_tree(uint32_t degree, uint32_t bucket, const Pose *poses, size_t);
void stack_of_road_over_scan(const Pose *poses, size_t);
void stack_of_road_over_tree(uint32_t degree, uint32_t bucket, const Pose *poses, size_t);

// The library calls these where a measured stretch begins and ends, and at each distance that is counted.
void stretch_begins(uint32_t call);
void stretch_ends(uint32_t call);
void distance_measured();
}

// The calls that are measured, by the numbers that the library has for them.
enum Call : uint32_t { MAKING, ADDING, DROPPING, NEAR, WITHIN, ISLAND, ROUTE, STEP, PLAY, CALLS };
