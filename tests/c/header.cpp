// The header in C++.
#include "l4map.h"

int main() {
    struct l4map db = L4MAP_NOTHING;
    l4map_free(&db);
    return l4map_version() == L4MAP_VERSION ? 0 : 1;
}
