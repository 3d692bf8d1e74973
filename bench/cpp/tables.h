// The tables that are measured, each in a file of its own.
#pragma once
#include <cstddef>
#include <string>

void tables_of_near();
void tables_of_roads();
void tables_of_steps();

// A number with commas between its thousands.
inline std::string with_commas(size_t n) {
    std::string digits = std::to_string(n);
    for (int at = int(digits.size()) - 3; at > 0; at -= 3) digits.insert(size_t(at), ",");
    return digits;
}
