// Measures what is named: near, roads, steps. Prints costs, of which `tables.py` makes tables.
#include "tables.h"
#include <cstring>

int main(int count, char **words) {
    for (int i = 1; i < count; i++) {
        if (std::strcmp(words[i], "near") == 0) tables_of_near();
        if (std::strcmp(words[i], "roads") == 0) tables_of_roads();
        if (std::strcmp(words[i], "steps") == 0) tables_of_steps();
    }
}
