// What the tests of bindings/range_map.hpp share.
#ifndef TESTS_HPP
#define TESTS_HPP

#include "range_map.hpp"

#include <cstdint>
#include <string>
#include <vector>

// Counts a result, and prints what was tested if it is wrong.
void judge(bool is_right, const std::string &what);

// A pseudo-random number below the given one, of the sequence that `seed` begins.
void seed(std::uint64_t number);
std::uint64_t draw(std::uint64_t below);

template <class Map> std::vector<typename Map::entry> list(const Map &map) { return {map.begin(), map.end()}; }

using numbers = rangemap::map<int, int>;

// Types of keys and values.
enum class letter : char { a = 'a' };
enum class level : std::int8_t { low = -128, zero = 0, high = 127 };
enum class place : std::uint64_t {};

struct point {
    std::uint16_t x, y;
    friend bool operator==(const point &a, const point &b) { return a.x == b.x && a.y == b.y; }
};

// It has no default constructor.
struct id {
    explicit id(int given) : number(given + 1) {}
    int number;
    friend bool operator==(const id &a, const id &b) { return a.number == b.number; }
};

// The tests, each in a file of its own.
void test_members();
void test_iterators();
void test_combine_of_each_type();
void test_tables();
void test_whole_maps();
void test_random_calls(long calls);
void test_failing_allocations();

#endif
