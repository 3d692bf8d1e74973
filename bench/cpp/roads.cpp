// Routes and islands beside a Dijkstra with a heap and a flood, over the same roads.
#include "measure.h"
#include "plain_roads.h"
#include "tables.h"

// A set of poses, and the trips that are made among them.
struct Map {
    std::string name;
    std::vector<Pose> poses;
    std::vector<Trip> trips;
};

static Trip trip(size_t from, size_t to) { return {uint16_t(from), uint16_t(to), 0, 0, 0, 0}; }

static Map random_map(Shape shape, size_t count) {
    Map map{name_of(shape), Poses(shape).some(count), {}};
    std::mt19937 random(7);
    for (int i = 0; i < 16; i++) map.trips.push_back(trip(1 + random() % count, 1 + random() % count));
    return map;
}

static Map line_map(size_t count, bool from_first) {
    Map map{from_first ? "line, from the first" : "line, from the last", Poses(Shape::line).some(count), {}};
    map.trips.push_back(from_first ? trip(1, count) : trip(count, 1));
    return map;
}

static size_t road_count(const Roads &roads) {
    size_t ends = 0;
    for (const auto &of_one : roads) ends += of_one.size();
    return ends / 2;
}

static Costs plain_costs(const Roads &roads, std::vector<Trip> &trips, bool stops) {
    return measured({ROUTE, ISLAND}, [&](uint32_t rounds) {
        stretch_begins(ROUTE);
        for (uint32_t r = 0; r < rounds; r++)
            for (Trip &t : trips) plain_route(roads, t, stops);
        stretch_ends(ROUTE);
        stretch_begins(ISLAND);
        for (uint32_t r = 0; r < rounds; r++)
            for (Trip &t : trips) t.island = plain_island(roads, t.from);
        stretch_ends(ISLAND);
    });
}

static size_t differing(const std::vector<Trip> &ours, const std::vector<Trip> &theirs) {
    size_t differ = 0;
    for (size_t i = 0; i < ours.size(); i++) {
        const Trip &a = ours[i], &b = theirs[i];
        differ += a.length != b.length || a.count != b.count || a.digest != b.digest || a.island != b.island || a.count == 0;
    }
    return differ;
}

static void compare(const Map &map, size_t k) {
    Roads roads = roads_of(map.poses, k);
    std::vector<Trip> ours = map.trips, theirs = map.trips, stopped = map.trips;
    Costs our_costs = measured({ROUTE, ISLAND}, [&](uint32_t rounds) {
        our_roads(map.poses.data(), map.poses.size(), uint32_t(k), ours.data(), ours.size(), rounds);
    });
    Costs plain = plain_costs(roads, theirs, false);
    Costs stopping = plain_costs(roads, stopped, true);
    double calls = double(map.trips.size());
    std::string row = map.name + "|" + with_commas(map.poses.size()) + "|" + std::to_string(k);
    tell("roads", row, "roads", with_commas(road_count(roads)));
    tell_cost("roads", row, "route", our_costs, ROUTE, calls);
    tell_cost("roads", row, "Dijkstra", plain, ROUTE, calls);
    tell_cost("roads", row, "stopping", stopping, ROUTE, calls);
    tell_cost("roads", row, "island", our_costs, ISLAND, calls);
    tell_cost("roads", row, "flood", plain, ISLAND, calls);
    tell("roads", row, "differ", std::to_string(differing(ours, theirs) + differing(ours, stopped)));
}

void tables_of_roads() {
    for (size_t k : {size_t(1), size_t(3), size_t(8)})
        for (size_t count : {size_t(64), size_t(256), size_t(1024)}) {
            for (Shape shape : {Shape::spread_out, Shape::clustered, Shape::many_ties}) compare(random_map(shape, count), k);
            for (bool from_first : {true, false}) compare(line_map(count, from_first), k);
        }
}
