// Tests bindings/range_map.hpp:
// - types.cpp: which types keys and values may have;
// - members.cpp: members, with results that are written out;
// - iterators.cpp: walks, and maps made from iterators;
// - combine.cpp: `combine` of each integer type, against the arithmetic of the type;
// - tables.cpp: tables, against the map of their rows;
// - whole_maps.cpp: operators on temporaries, `union_many`, `erase_if` and hashes;
// - random_calls.cpp: random calls against std::map;
// - failing.cpp: each allocation of each call failing in turn.
// tests/bindings.sh compiles the files of alone/ each into a program of its own.
// The program is linked with --wrap of malloc, realloc and free. Arguments: the number of random calls, and a seed. The last line is 'N
// passed, M failed'.
#include "../c/allocation.h"
#include "tests.hpp"

#include <cstdio>
#include <cstdlib>
#include <new>

// These are not inlined, since gcc would warn that memory of `new` is given to `free`.
[[gnu::noinline]] void *operator new(std::size_t size) {
    void *block = std::malloc(size ? size : 1);
    if (!block) throw std::bad_alloc();
    return block;
}

[[gnu::noinline]] void operator delete(void *block) noexcept { std::free(block); }
[[gnu::noinline]] void operator delete(void *block, std::size_t) noexcept { std::free(block); }

static long passed, failed;

void judge(bool is_right, const std::string &what) {
    if (is_right) {
        passed++;
    } else if (failed++ < 20) {
        std::printf("%s\n", what.c_str());
    }
}

static std::uint64_t state = 88172645463325252u;

void seed(std::uint64_t number) { state += number * 0x9e3779b97f4a7c15u; }

std::uint64_t draw(std::uint64_t below) {
    state ^= state << 13;
    state ^= state >> 7;
    state ^= state << 17;
    return (state >> 11) % below;
}

int main(int count, char **arguments) {
    if (count > 2) seed(static_cast<std::uint64_t>(std::atol(arguments[2])));
    std::setvbuf(stdout, nullptr, _IOLBF, BUFSIZ);
    const long blocks_before = blocks;
    test_members();
    test_iterators();
    test_combine_of_each_type();
    test_tables();
    test_whole_maps();
    test_random_calls(count > 1 ? std::atol(arguments[1]) : 100000);
    test_failing_allocations();
    const long blocks_after = blocks;
    judge(blocks_after == blocks_before, "memory that is not freed");
    std::printf("%ld passed, %ld failed\n", passed, failed);
    return failed != 0;
}
