// Counts how many bookings each hour has, and prints the hours with the counts and the most bookings at once. depth.c is the same
// program in C.
#include "range_map.hpp"

#include <algorithm>
#include <iostream>

int main() {
    static constexpr std::pair<int, int> bookings[] = {{9, 11}, {10, 10}, {10, 16}, {20, 22}}; // hours, both included
    rangemap::map<int, std::uint64_t> depth;
    for (auto [first, last] : bookings) depth.combine(first, last, 1, rangemap::op::add, rangemap::place::all);
    std::uint64_t most = 0;
    for (auto [first, last, count] : depth) {
        std::cout << first << " to " << last << ": " << count << '\n';
        most = std::max(most, count);
    }
    std::cout << "at most " << most << " at once\n";
}
