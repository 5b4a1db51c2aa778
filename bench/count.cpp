// Runs a work of one side, for callgrind to count. bench/counted.sh says how it is called.
#include <cstdint>
#include <cstdio>
#include <cstdlib>
#include <string>

extern "C" {
std::uint64_t plain_run(std::uint32_t work, std::uint64_t size, std::uint64_t count);
std::uint64_t library_run(std::uint32_t work, std::uint64_t size, std::uint64_t count);
std::uint64_t planned_run(std::uint32_t work, std::uint64_t size, std::uint64_t count);
std::uint64_t as_crate_run(std::uint32_t work, std::uint64_t size, std::uint64_t count);
}

int main(int argc, char** argv) {
    if (argc != 5) {
        std::fprintf(stderr, "usage: count library|plain|planned|crate WORK SIZE COUNT\n");
        return 2;
    }
    std::string side = argv[1];
    auto run = side == "library" ? library_run : side == "plain" ? plain_run : side == "planned" ? planned_run : as_crate_run;
    auto work = static_cast<std::uint32_t>(std::strtoul(argv[2], nullptr, 10));
    // (a side without such a work returns 0)
    return run(work, std::strtoull(argv[3], nullptr, 10), std::strtoull(argv[4], nullptr, 10)) == 0 ? 1 : 0;
}
