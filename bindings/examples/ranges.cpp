// Paints ranges, and prints the entries and the first gap. ranges.c is the same program in C.
#include "range_map.hpp"

#include <iostream>

int main() {
    rangemap::map<int, unsigned> map = {{10, 49, 7}, {20, 29, 8}};
    map.erase_range(40, 44);
    for (auto [first, last, value] : map) std::cout << first << " to " << last << ": " << value << '\n';
    if (auto gap = map.find_gap(10, 99, 5)) std::cout << "5 keys without a value from " << *gap << '\n';
}
