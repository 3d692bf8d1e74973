// What a stretch of calls costs: seconds by the clock, the least of five runs, or instructions where the program runs
// under callgrind. `tables.py` makes tables of what is printed here.
#pragma once
#include "library.h"
#include <functional>

// The cost of a stretch: seconds, or the label of callgrind's dump of it.
struct Cost {
    double seconds = 1e9;
    unsigned dump = 0;
};

// What one set of calls cost, by call, and how often each was made.
struct Costs {
    Cost of[CALLS];
    uint32_t rounds = 1;
};

// Runs the calls, given how many rounds to make: as many as fill some milliseconds, and five times over. The stretches
// are marked in them, by `stretch_begins` and `stretch_ends`.
Costs measured(std::initializer_list<Call> calls, const std::function<void(uint32_t)> &run);

// How many distances have been counted since the last look.
size_t distances_measured();

// Prints a cost of so many calls in each round, for a row and a column of a table.
void tell_cost(const std::string &table, const std::string &row, const std::string &column, const Costs &costs, Call call, double calls);

// Prints a plain word of a row and a column.
void tell(const std::string &table, const std::string &row, const std::string &column, const std::string &word);
