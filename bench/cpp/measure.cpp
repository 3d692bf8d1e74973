#include "measure.h"
#include <chrono>
#include <cstdio>
#include <valgrind/callgrind.h>

using Clock = std::chrono::steady_clock;

static const double LONG_ENOUGH = 0.002;
static const uint32_t MOST_ROUNDS = 1 << 14;
static const int RUNS = 5;

static Clock::time_point began[CALLS];
static Cost least[CALLS];
static unsigned dumps = 0;
static size_t distances = 0;

extern "C" void stretch_begins(uint32_t call) {
    if (RUNNING_ON_VALGRIND) {
        CALLGRIND_START_INSTRUMENTATION;
        CALLGRIND_ZERO_STATS;
    } else {
        began[call] = Clock::now();
    }
}

extern "C" void stretch_ends(uint32_t call) {
    if (RUNNING_ON_VALGRIND) {
        least[call].dump = ++dumps;
        CALLGRIND_DUMP_STATS_AT(std::to_string(dumps).c_str());
        CALLGRIND_STOP_INSTRUMENTATION;
    } else {
        double took = std::chrono::duration<double>(Clock::now() - began[call]).count();
        least[call].seconds = std::min(least[call].seconds, took);
    }
}

extern "C" void distance_measured() { distances++; }

size_t distances_measured() {
    size_t so_far = distances;
    distances = 0;
    return so_far;
}

static void forget() {
    for (Cost &cost : least) cost = Cost();
}

static bool long_enough(std::initializer_list<Call> calls) {
    for (Call call : calls)
        if (least[call].seconds < LONG_ENOUGH) return false;
    return true;
}

Costs measured(std::initializer_list<Call> calls, const std::function<void(uint32_t)> &run) {
    Costs costs;
    forget();
    run(costs.rounds);
    if (!RUNNING_ON_VALGRIND) {
        while (!long_enough(calls) && costs.rounds < MOST_ROUNDS) {
            costs.rounds *= 4;
            forget();
            run(costs.rounds);
        }
        for (int i = 1; i < RUNS; i++) run(costs.rounds);
    }
    for (Call call : calls) costs.of[call] = least[call];
    return costs;
}

void tell_cost(const std::string &table, const std::string &row, const std::string &column, const Costs &costs, Call call, double calls) {
    const Cost &cost = costs.of[call];
    std::printf("cost\t%s\t%s\t%s\t%.0f\t%.9f\t%u\n", table.c_str(), row.c_str(), column.c_str(), calls * costs.rounds, cost.seconds, cost.dump);
    std::fflush(stdout);
}

void tell(const std::string &table, const std::string &row, const std::string &column, const std::string &word) {
    std::printf("word\t%s\t%s\t%s\t%s\n", table.c_str(), row.c_str(), column.c_str(), word.c_str());
}
