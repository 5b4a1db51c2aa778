// Measures the works of a range map on five sides, and prints the tables. The sides are the library, plain Rust, plain Rust
// that works like the Rust crate (`as_crate.rs`) or like the library (`planned.rs`), and Boost.
//
// Each side does a work with no operation and with many, in several rounds in which the sides take turns. The time of the
// operations is the difference of the least processor times. The checksums of the results must be the same on all sides.
#include <fcntl.h>
#include <malloc.h>
#include <sys/resource.h>
#include <sys/wait.h>
#include <unistd.h>

#include <algorithm>
#include <cstdint>
#include <cstdio>
#include <cstdlib>
#include <cstring>
#include <ctime>
#include <fstream>
#include <iterator>
#include <map>
#include <string>
#include <utility>
#include <vector>

using std::string;

// A side does `count` operations of a work on maps of `size` entries, and returns a checksum, which is not 0. It returns 0 if
// it has no such work. If `checked` is added to the work's number, the checksum includes the final entries.
extern "C" {
std::uint64_t plain_run(std::uint32_t work, std::uint64_t size, std::uint64_t count);
std::uint64_t library_run(std::uint32_t work, std::uint64_t size, std::uint64_t count);
std::uint64_t boost_run(std::uint32_t work, std::uint64_t size, std::uint64_t count);
std::uint64_t planned_run(std::uint32_t work, std::uint64_t size, std::uint64_t count);
std::uint64_t as_crate_run(std::uint32_t work, std::uint64_t size, std::uint64_t count);
std::uint64_t through_c_run(std::uint32_t work, std::uint64_t size, std::uint64_t count);
}

namespace {

constexpr std::uint32_t checked = 200;

using Run = std::uint64_t (*)(std::uint32_t, std::uint64_t, std::uint64_t);

constexpr Run runs[] = {plain_run, library_run, as_crate_run, planned_run, boost_run};
constexpr const char* side_names[] = {"plain Rust", "library", "the crate's way", "planned Rust", "Boost"};
constexpr std::size_t sides = 5;
constexpr std::size_t plain = 0;
constexpr std::size_t library = 1;
constexpr std::size_t as_crate = 2;

// Added to a work's number if the library does it through its calls for C.
constexpr std::uint32_t by_c = 100;

std::uint64_t run(std::size_t side, std::uint32_t work, std::uint64_t size, std::uint64_t count) {
    if (work % checked < by_c) {
        return runs[side](work, size, count);
    }
    return (side == library ? through_c_run : runs[side])(work - by_c, size, count);
}

struct Work {
    const char* name;
    std::uint32_t number;
    std::uint64_t size;
    std::uint64_t most;   // operations
    double parts;         // of an operation: the table has the time of one
    const char* part;
};

constexpr double thousand = 1e3;

const Work works[] = {
    {"paint", 0, 1'000, 100'000, 1, "paint"},
    {"paint", 0, 10'000, 100'000, 1, "paint"},
    {"paint", 0, 100'000, 100'000, 1, "paint"},
    {"paint", 0, 1'000'000, 1'000'000, 1, "paint"},
    {"insert", 1, 1'000, 100'000, 1, "key"},
    {"insert", 1, 10'000, 100'000, 1, "key"},
    {"insert", 1, 100'000, 100'000, 1, "key"},
    {"insert", 1, 1'000'000, 1'000'000, 1, "key"},
    {"remove", 2, 1'000, 100'000, 1, "key"},
    {"remove", 2, 10'000, 100'000, 1, "key"},
    {"remove", 2, 100'000, 100'000, 1, "key"},
    {"remove", 2, 1'000'000, 1'000'000, 1, "key"},
    {"clumpy ascending paints", 3, 0, 1'000'000, 1, "paint"},
    {"get", 4, 1'000, 10'000'000, 1, "key"},
    {"get", 4, 10'000, 10'000'000, 1, "key"},
    {"get", 4, 100'000, 10'000'000, 1, "key"},
    {"get", 4, 1'000'000, 10'000'000, 1, "key"},
    {"split_off in the middle", 5, 100'000, 16, 1, "call"},
    {"append", 6, 100'000, 4, 1, "call"},
    {"pop_first", 7, 100'000, 400'000, 1, "key"},
    {"pop_last", 26, 100'000, 400'000, 1, "key"},
    {"ranges_retain, all kept", 27, 100'000, 1'000, 1e5, "entry"},
    {"`a \\| b`, equal sizes", 8, 1'000, 100'000, 2 * thousand, "entry"},
    {"`a \\| b`, equal sizes", 8, 10'000, 10'000, 20 * thousand, "entry"},
    {"`a \\| b`, equal sizes", 8, 100'000, 1'000, 200 * thousand, "entry"},
    {"`a \\| b`, equal sizes", 8, 1'000'000, 100, 2'000 * thousand, "entry"},
    {"`a \\| b`, b of a tenth", 9, 100'000, 1'000, 110 * thousand, "entry"},
    {"`a \\| b`, b of 100, borrowed", 10, 100'000, 1'000, 1, "call"},
    {"`a \\| b`, b of 100, owned", 11, 100'000, 1'000, 1, "call"},
    {"`a \\| b`, b of 100, owned", 11, 1'000'000, 1'000, 1, "call"},
    {"`a & b`, equal sizes", 12, 100'000, 1'000, 200 * thousand, "entry"},
    {"`a & b`, a of 100, borrowed", 21, 100'000, 1'000, 1, "call"},
    {"`a & b`, a of 100, borrowed", 21, 1'000'000, 1'000, 1, "call"},
    {"`a - b`, equal sizes", 13, 100'000, 1'000, 200 * thousand, "entry"},
    {"`a - b`, b of 100, borrowed", 22, 100'000, 1'000, 1, "call"},
    {"`a - b`, b of 100, owned", 23, 100'000, 1'000, 1, "call"},
    {"`a - b`, b of 100, owned", 23, 1'000'000, 1'000, 1, "call"},
    {"`a ^ b`, equal sizes", 14, 100'000, 1'000, 200 * thousand, "entry"},
    {"`a ^ b`, b of 100, borrowed", 28, 100'000, 1'000, 1, "call"},
    {"`a ^ b`, b of 100, owned", 29, 100'000, 1'000, 1, "call"},
    {"a range of the lower half of the keys", 24, 100'000, 1'000, 5e4, "entry"},
    {"all keys, 100 an entry", 15, 100'000, 100, 1e7, "key"},
    {"all keys, 1 an entry", 16, 1'000'000, 1'000, 1e6, "key"},
    {"a map of unsorted ranges; plain paints them", 17, 1'000'000, 10, 1e6, "range"},
    {"a map of unsorted ranges, painted one by one", 19, 1'000'000, 10, 1e6, "range"},
    {"a map of sorted ranges; plain copies them", 18, 1'000'000, 100, 1e6, "range"},
    {"filled ranges of so many gaps, 10^5 entries; plain paints them", 25, 1, 100'000, 1, "gap"},
    {"filled ranges of so many gaps, 10^5 entries; plain paints them", 25, 10, 10'000, 10, "gap"},
    {"filled ranges of so many gaps, 10^5 entries; plain paints them", 25, 1'000, 100, thousand, "gap"},
    {"the union of so many maps of 10^5 entries in all", 20, 2, 1'000, 1e5, "entry"},
    {"the union of so many maps of 10^5 entries in all", 20, 16, 1'000, 1e5, "entry"},
    {"the union of so many maps of 10^5 entries in all", 20, 256, 1'000, 1e5, "entry"},
    {"the union of so many maps of 10^5 entries in all", 20, 4'096, 1'000, 1e5, "entry"},
    {"paint; the library from C", by_c + 0, 10'000, 100'000, 1, "paint"},
    {"get; the library from C", by_c + 4, 100'000, 10'000'000, 1, "key"},
};

// A text for the program on lines.
struct Text {
    const char* name;
    std::uint64_t lines;
    std::uint64_t keys;   // 0: empty lines
    bool looks_up;        // every other line
};

const Text texts[] = {
    {"program, random paints", 100'000, 1'700'000, false},
    {"program, paints and lookups among 100 keys", 1'000'000, 100, true},
    {"program, empty lines", 10'000'000, 0, false},
};

struct Settings {
    double enough = 1e8;   // nanoseconds for a measured run
    int rounds = 9;
    std::uint64_t shorter = 1;   // texts have this many times fewer lines
    string folder, program, plain_program;
    std::vector<string> picked;
};

// The measured times of a work on one side.
struct Measured {
    std::uint64_t count = 0;   // 0: not measured
    double least_none = 1e300, least_all = 1e300;

    double time() const { return std::max(least_all - least_none, 0.0); }

    // Whether the side is so slow that it has one round only.
    bool is_slow() const { return least_all < 1e300 && least_all > 3e9; }
};

double now() {
    timespec time;
    clock_gettime(CLOCK_PROCESS_CPUTIME_ID, &time);
    return static_cast<double>(time.tv_sec) * 1e9 + static_cast<double>(time.tv_nsec);
}

std::uint64_t sink;

double timed(std::size_t side, const Work& work, std::uint64_t count) {
    double start = now();
    sink += run(side, work.number, work.size, count);
    return now() - start;
}

// Returns how many operations take `least` nanoseconds, and as long as the work without operations. It returns at most `work.most`.
std::uint64_t enough_operations(std::size_t side, const Work& work, double least) {
    double none = timed(side, work, 0);
    double enough = std::max(least, none);
    std::uint64_t count = std::min<std::uint64_t>(work.most, work.most < 100 ? 1 : 10);
    for (;;) {
        double time = timed(side, work, count) - none;
        if (count == work.most || time >= enough) {
            return count;
        }
        double times = std::clamp(1.2 * enough / std::max(time, 1.0), 2.0, 10.0);
        count = std::min(work.most, static_cast<std::uint64_t>(static_cast<double>(count) * times));
    }
}

[[noreturn]] void fail(const string& message) {
    std::fprintf(stderr, "bench: %s\n", message.c_str());
    std::exit(1);
}

// Fails if the sides have different checksums.
void compare(const Work& work, const Measured (&measured)[sides]) {
    std::uint64_t count = work.most;
    for (const Measured& side : measured) {
        if (side.count != 0) {
            count = std::min(count, side.count);
        }
    }
    std::uint64_t first = 0;
    for (std::size_t side = 0; side < sides; ++side) {
        if (measured[side].count == 0) {
            continue;
        }
        std::uint64_t sum = run(side, checked + work.number, work.size, count);
        if (first != 0 && sum != first) {
            fail(string(work.name) + ": " + side_names[side] + " leaves something else");
        }
        first = sum;
    }
}

bool is_picked(const Settings& settings, const char* name) {
    return settings.picked.empty()
        || std::any_of(settings.picked.begin(), settings.picked.end(),
                       [name](const string& word) { return std::strstr(name, word.c_str()) != nullptr; });
}

string number(double value, const char* form = "%.3g") {
    char text[40];
    std::snprintf(text, sizeof text, value >= 1000 ? "%.0f" : form, value);
    return text;
}

string size_text(std::uint64_t size) {
    if (size == 0) {
        return "from none";
    }
    if (size < 100) {
        return std::to_string(size);
    }
    int power = 0;
    std::uint64_t rest = size;
    while (rest % 10 == 0) {
        rest /= 10;
        ++power;
    }
    if (rest != 1) {
        return std::to_string(size);
    }
    return "10^" + std::to_string(power);
}

string ratio_text(double ratio) { return number(ratio, "%.2f"); }

void print_head() {
    std::printf("| work | entries | time of one | plain Rust, ns | library, ns | library / plain ");
    std::printf("| the crate's way, ns | library / the crate's way | planned, ns | planned / plain | Boost, ns | Boost / plain |\n");
    std::printf("|---|---|---|---|---|---|---|---|---|---|---|---|\n");
}

void print_row(const string& name, const string& size, const string& part, double parts,
               const Measured (&measured)[sides]) {
    double times[sides] = {};
    for (std::size_t side = 0; side < sides; ++side) {
        if (measured[side].count != 0) {
            times[side] = measured[side].time() / static_cast<double>(measured[side].count) / parts;
        }
    }
    std::printf("| %s | %s | %s", name.c_str(), size.c_str(), part.c_str());
    for (std::size_t side = 0; side < sides; ++side) {
        if (measured[side].count == 0) {
            std::printf(" | - %s", side == plain ? "" : "| -");
        } else {
            const char* fewer = measured[side].count < measured[plain].count / 4 ? " (fewer)" : "";
            std::printf(" | %s%s", number(times[side]).c_str(), fewer);
            if (side == as_crate) {
                std::printf(" | %s", ratio_text(times[library] / times[side]).c_str());
            } else if (side != plain) {
                std::printf(" | %s", ratio_text(times[side] / times[plain]).c_str());
            }
        }
    }
    std::printf(" |\n");
    std::fflush(stdout);
}

// The time of one operation of the library, by the work's number and size.
using Times = std::map<std::pair<std::uint32_t, std::uint64_t>, double>;

void measure_works(const Settings& settings, Times& times) {
    for (const Work& work : works) {
        if (!is_picked(settings, work.name)) {
            continue;
        }
        Measured measured[sides];
        for (std::size_t side = 0; side < sides; ++side) {
            if (run(side, work.number, work.size, 0) != 0) {
                measured[side].count = enough_operations(side, work, settings.enough);
            }
        }
        compare(work, measured);
        for (int round = 0; round < settings.rounds; ++round) {
            for (std::size_t side = 0; side < sides; ++side) {
                Measured& one = measured[side];
                if (one.count != 0 && !one.is_slow()) {
                    one.least_none = std::min(one.least_none, timed(side, work, 0));
                    one.least_all = std::min(one.least_all, timed(side, work, one.count));
                }
            }
        }
        if (measured[library].count != 0) {
            times[{work.number, work.size}] = measured[library].time() / static_cast<double>(measured[library].count);
        }
        print_row(work.name, size_text(work.size), work.part, work.parts, measured);
    }
}

void print_growth(const Times& times, const char* name, std::uint32_t number_of, std::uint64_t size, double factor,
                  std::uint32_t base, std::uint64_t base_size) {
    auto one = times.find({number_of, size});
    auto other = times.find({base, base_size});
    if (one != times.end() && other != times.end()) {
        std::printf("| %s | %s |\n", name, ratio_text(one->second / (factor * other->second)).c_str());
    }
}

void print_growths(const Times& times) {
    if (times.empty()) {
        return;
    }
    std::printf("\n| of the library | ratio |\n|---|---|\n");
    print_growth(times, "paint at 10^6 entries, of that at 10^4", 0, 1'000'000, 1, 0, 10'000);
    print_growth(times, "insert at 10^6 entries, of that at 10^4", 1, 1'000'000, 1, 1, 10'000);
    print_growth(times, "remove at 10^6 entries, of that at 10^4", 2, 1'000'000, 1, 2, 10'000);
    print_growth(times, "`a \\| b`, b of 100, owned at 10^5, of 100 paints", 11, 100'000, 100, 0, 100'000);
    print_growth(times, "a map of 10^6 unsorted ranges, of painting them", 17, 1'000'000, 1, 19, 1'000'000);
    print_growth(times, "`a \\| b`, b of 100, owned at 10^6, of that at 10^5", 11, 1'000'000, 1, 11, 100'000);
    print_growth(times, "`a - b`, b of 100, owned at 10^6, of that at 10^5", 23, 1'000'000, 1, 23, 100'000);
    print_growth(times, "the union of 4,096 maps, of that of 16", 20, 4'096, 1, 20, 16);
    print_growth(times, "paint from C, of a direct one at 10^4", by_c + 0, 10'000, 1, 0, 10'000);
    print_growth(times, "get from C, of a direct one", by_c + 4, 100'000, 1, 4, 100'000);
}

void write_text(const Settings& settings, const Text& text, const string& path) {
    std::ofstream file(path);
    std::uint64_t state = 5;
    auto below = [&state](std::uint64_t limit) {
        state = state * 6364136223846793005u + 1442695040888963407u;
        return (state >> 33) % limit;
    };
    const char* words[] = {"red", "green", "blue", "yellow"};
    for (std::uint64_t line = 0; line < text.lines / settings.shorter; ++line) {
        if (text.keys == 0) {
            file << '\n';
        } else if (text.looks_up && line % 2 == 1) {
            file << "get " << below(text.keys) << '\n';
        } else {
            std::uint64_t lo = below(text.keys);
            file << "paint " << lo << ' ' << lo + below(16) << ' ' << words[below(4)] << '\n';
        }
    }
}

// Returns the processor time, user and system, of a program on an input.
double program_time(const string& program, const string& input, const string& output) {
    pid_t child = fork();
    if (child == 0) {
        int from = open(input.c_str(), O_RDONLY);
        int to = open(output.c_str(), O_WRONLY | O_CREAT | O_TRUNC, 0600);
        if (from >= 0 && to >= 0 && dup2(from, 0) == 0 && dup2(to, 1) == 1) {
            execl(program.c_str(), program.c_str(), static_cast<char*>(nullptr));
        }
        _exit(127);
    }
    int status = 0;
    rusage usage;
    if (child < 0 || wait4(child, &status, 0, &usage) != child || status != 0) {
        fail(program + " failed");
    }
    auto nanoseconds = [](timeval time) { return static_cast<double>(time.tv_sec) * 1e9 + static_cast<double>(time.tv_usec) * 1e3; };
    return nanoseconds(usage.ru_utime) + nanoseconds(usage.ru_stime);
}

string contents(const string& path) {
    std::ifstream file(path, std::ios::binary);
    return {std::istreambuf_iterator<char>(file), std::istreambuf_iterator<char>()};
}

void measure_programs(const Settings& settings) {
    for (const Text& text : texts) {
        if (!is_picked(settings, text.name)) {
            continue;
        }
        string input = settings.folder + "/input";
        write_text(settings, text, input);
        const string programs[] = {settings.plain_program, settings.program};
        const string outputs[] = {settings.folder + "/plain-output", settings.folder + "/output"};
        for (std::size_t side : {plain, library}) {
            program_time(programs[side], input, outputs[side]);
        }
        if (contents(outputs[plain]) != contents(outputs[library])) {
            fail(string(text.name) + ": other answers");
        }
        Measured measured[sides];
        for (int round = 0; round < settings.rounds; ++round) {
            for (std::size_t side : {plain, library}) {
                Measured& one = measured[side];
                if (one.is_slow()) {
                    continue;
                }
                one.count = text.lines / settings.shorter;
                one.least_none = 0;
                one.least_all = std::min(one.least_all, program_time(programs[side], input, "/dev/null"));
            }
        }
        print_row(text.name, "-", "line", 1, measured);
    }
}

}  // namespace

int main(int count, char** arguments) {
    Settings settings;
    for (int i = 1; i < count; ++i) {
        string word = arguments[i];
        if (word == "--quick") {
            settings.enough = 1e7;
            settings.rounds = 3;
            settings.shorter = 10;
        } else if (word == "--programs" && i + 3 < count) {
            settings.folder = arguments[++i];
            settings.program = arguments[++i];
            settings.plain_program = arguments[++i];
        } else {
            settings.picked.push_back(word);
        }
    }
    // freed memory stays with the process, so that no round gets it from the system again
    mallopt(M_MMAP_THRESHOLD, 1 << 30);
    mallopt(M_TRIM_THRESHOLD, 1 << 30);
    Times times;
    print_head();
    measure_works(settings, times);
    if (!settings.folder.empty()) {
        measure_programs(settings);
    }
    print_growths(times);
    return sink == 1;
}
