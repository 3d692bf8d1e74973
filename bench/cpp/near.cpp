// Our scan and our tree beside a plain scan, a tree by the same rules in plain C++, and OMPL's GNAT with its own settings.
// The plain scan and OMPL's tree measure distances in two ways, with branches and without (quick).
#include "measure.h"
#include "plain_tree.h"
#include "tables.h"
// OMPL's header uses it without including it.
#include <iostream>
#include <ompl/datastructures/NearestNeighborsGNATNoThreadSafety.h>
#include <ompl/util/RandomNumbers.h>

static const size_t WANTED = 8;
static const size_t QUERIES = 64;

struct Filed {
    Pose pose;
    uint16_t number;
    bool operator==(const Filed &other) const { return number == other.number; }
    bool operator!=(const Filed &other) const { return number != other.number; }
};

using OmplTree = ompl::NearestNeighborsGNATNoThreadSafety<Filed>;
using Answers = std::vector<uint32_t>;

struct Input {
    Shape shape;
    std::vector<Pose> poses, queries;
};

// What an index cost, and the hits that it told of each query.
struct Told {
    Costs costs;
    Answers answers = Answers(QUERIES);
};

static std::string row_of(const Input &input) { return name_of(input.shape) + "|" + with_commas(input.poses.size()); }

static size_t differing(const Answers &a, const Answers &b) {
    size_t differ = 0;
    for (size_t i = 0; i < a.size(); i++) differ += a[i] != b[i];
    return differ;
}

template <Distance distance> static Told plain_scan(const Input &input) {
    Told plain;
    plain.costs = measured({NEAR}, [&](uint32_t rounds) {
        stretch_begins(NEAR);
        for (uint32_t r = 0; r < rounds; r++)
            for (size_t i = 0; i < QUERIES; i++) {
                Nearest<WANTED> hits;
                for (size_t n = 0; n < input.poses.size(); n++) hits.offer({distance(input.queries[i], input.poses[n]), uint16_t(n + 1)});
                plain.answers[i] = hits.digest();
            }
        stretch_ends(NEAR);
    });
    return plain;
}

static void fill(OmplTree &tree, const Input &input) {
    for (size_t n = 0; n < input.poses.size(); n++) tree.add({input.poses[n], uint16_t(n + 1)});
}

template <Distance distance> static OmplTree ompl_tree(const Input &input) {
    OmplTree tree;
    tree.setDistanceFunction([](const Filed &a, const Filed &b) { return double(distance(a.pose, b.pose)); });
    fill(tree, input);
    return tree;
}

// How many distances OMPL's tree measures for all queries.
static size_t ompl_distances(const Input &input) {
    size_t count = 0;
    OmplTree tree;
    tree.setDistanceFunction([&count](const Filed &a, const Filed &b) { count++; return double(apart(a.pose, b.pose)); });
    fill(tree, input);
    count = 0;
    std::vector<Filed> found;
    for (const Pose &q : input.queries) tree.nearestK({q, 0}, WANTED, found);
    return count;
}

static uint32_t ompl_near(const OmplTree &tree, const Pose &q, std::vector<Filed> &found) {
    tree.nearestK({q, 0}, WANTED, found);
    Nearest<WANTED> hits;
    for (const Filed &f : found) hits.offer({apart(q, f.pose), f.number});
    return hits.digest();
}

template <Distance distance> static Told told_by_ompl(const Input &input) {
    Told told;
    std::vector<Filed> found;
    OmplTree tree = ompl_tree<distance>(input);
    told.costs = measured({NEAR, ADDING}, [&](uint32_t rounds) {
        stretch_begins(ADDING);
        for (uint32_t r = 0; r < rounds; r++) ompl_tree<distance>(input);
        stretch_ends(ADDING);
        stretch_begins(NEAR);
        for (uint32_t r = 0; r < rounds; r++)
            for (size_t i = 0; i < QUERIES; i++) told.answers[i] = ompl_near(tree, input.queries[i], found);
        stretch_ends(NEAR);
    });
    return told;
}

static void tell_ompl(const Input &input, const Answers &wanted) {
    Told plain = told_by_ompl<apart>(input), quick = told_by_ompl<apart_quickly>(input);
    tell_cost("near", row_of(input), "OMPL", plain.costs, NEAR, QUERIES);
    tell_cost("near", row_of(input), "OMPL quick", quick.costs, NEAR, QUERIES);
    tell_cost("adds", row_of(input), "OMPL", quick.costs, ADDING, double(input.poses.size()));
    tell("near", row_of(input), "OMPL distances", std::to_string(ompl_distances(input) / QUERIES));
    tell("near", row_of(input), "OMPL differ", std::to_string(differing(plain.answers, wanted)));
}

static void tell_scans(const Input &input, const Told &plain, const Told &quick) {
    Answers answers(QUERIES);
    Costs costs = measured({NEAR, ADDING}, [&](uint32_t rounds) {
        our_scan(input.poses.data(), input.poses.size(), rounds, input.queries.data(), QUERIES, rounds, answers.data(), QUERIES);
    });
    tell_cost("near", row_of(input), "plain scan", plain.costs, NEAR, QUERIES);
    tell_cost("near", row_of(input), "plain scan quick", quick.costs, NEAR, QUERIES);
    tell_cost("near", row_of(input), "our scan", costs, NEAR, QUERIES);
    tell_cost("adds", row_of(input), "our scan", costs, ADDING, double(input.poses.size()));
    tell("near", row_of(input), "scan differ", std::to_string(differing(answers, plain.answers)));
}

// How many distances our tree measures for a query; the answers are compared too.
static size_t our_distances(const Input &input, uint32_t degree, uint32_t bucket, const Answers &wanted, size_t &differ) {
    Answers answers(QUERIES), none;
    our_tree_counted(degree, bucket, input.poses.data(), input.poses.size(), input.queries.data(), 0, none.data(), 0);
    size_t filing = distances_measured();
    our_tree_counted(degree, bucket, input.poses.data(), input.poses.size(), input.queries.data(), QUERIES, answers.data(), QUERIES);
    differ += differing(answers, wanted);
    return distances_measured() - filing;
}

static Costs plain_tree_costs(const Input &input, uint32_t degree, uint32_t bucket, const Answers &wanted, size_t &differ, size_t &distances) {
    PlainTree tree(degree, bucket);
    for (const Pose &pose : input.poses) tree.add(pose);
    Answers answers(QUERIES);
    std::vector<uint16_t> pending;
    for (const Pose &q : input.queries) tree.near<WANTED>(q, pending);
    distances = tree.measured;
    Costs costs = measured({NEAR, ADDING}, [&](uint32_t rounds) {
        stretch_begins(ADDING);
        for (uint32_t r = 0; r < rounds; r++) {
            PlainTree fresh(degree, bucket);
            for (const Pose &pose : input.poses) fresh.add(pose);
        }
        stretch_ends(ADDING);
        stretch_begins(NEAR);
        for (uint32_t r = 0; r < rounds; r++)
            for (size_t i = 0; i < QUERIES; i++) answers[i] = tree.near<WANTED>(input.queries[i], pending).digest();
        stretch_ends(NEAR);
    });
    differ += differing(answers, wanted);
    return costs;
}

static void tell_trees(const Input &input, const Answers &wanted, uint32_t degree, uint32_t bucket) {
    std::string row = row_of(input) + "|(" + std::to_string(degree) + ", " + std::to_string(bucket) + ")";
    size_t differ = 0, plain_distances = 0;
    Costs plain = plain_tree_costs(input, degree, bucket, wanted, differ, plain_distances);
    Answers answers(QUERIES);
    Costs ours = measured({NEAR, ADDING}, [&](uint32_t rounds) {
        our_tree(degree, bucket, input.poses.data(), input.poses.size(), rounds, input.queries.data(), QUERIES, rounds, answers.data(), QUERIES);
    });
    differ += differing(answers, wanted);
    size_t distances = our_distances(input, degree, bucket, wanted, differ);
    tell_cost("trees", row, "ours", ours, NEAR, QUERIES);
    tell_cost("trees", row, "C++", plain, NEAR, QUERIES);
    tell_cost("tree adds", row, "ours", ours, ADDING, double(input.poses.size()));
    tell_cost("tree adds", row, "C++", plain, ADDING, double(input.poses.size()));
    tell("trees", row, "distances", std::to_string(distances / QUERIES) + (distances == plain_distances ? "" : " and not " + std::to_string(plain_distances / QUERIES)));
    tell("trees", row, "differ", std::to_string(differ));
}

static void tables_of(const Input &input) {
    Told plain = plain_scan<apart>(input), quick = plain_scan<apart_quickly>(input);
    tell_scans(input, plain, quick);
    tell_ompl(input, plain.answers);
    for (auto [degree, bucket] : {std::pair<uint32_t, uint32_t>{2, 2}, {4, 8}, {4, 16}, {8, 8}, {8, 16}, {8, 32}})
        tell_trees(input, plain.answers, degree, bucket);
}

void tables_of_near() {
    // OMPL's tree chooses its first pivots at random: the same in every run.
    ompl::RNG::setSeed(1);
    for (size_t count : {size_t(64), size_t(1024)})
        for (Shape shape : {Shape::spread_out, Shape::clustered, Shape::many_ties}) {
            Poses poses(shape);
            Input input{shape, poses.some(count), {}};
            input.queries = poses.some(QUERIES);
            tables_of(input);
        }
}
