// The header read by C++.

#include "guppy.h"

int main() {
    const guppy_ends links[] = {{1, 0}};
    const bool flags[] = {true};
    uint32_t list[2] = {0};
    guppy_outcome outcome = guppy_order(links, 1, flags, 1, list, 2);
    bool is_in_order = outcome.status == 0 && list[0] == 1 && list[1] == 0;
    return guppy_version() == GUPPY_C_VERSION && is_in_order ? 0 : 1;
}
