// How much stack each call takes, beside the rows that are lent.
//
// The calls run on a thread whose stack we lend. Where a measured stretch begins, the stack below the function that makes the
// calls is painted; where it ends, the deepest word that is no longer paint tells how far down the calls have written. The rows
// and edge records lie above, in the function that makes the calls, so they do not count. Each set of calls is then made
// once more, in a process of its own, on a thread that has only so much stack beside the rows as was wanted.
#include "library.h"
#include "tables.h"
#include <cstdio>
#include <cstring>
#include <fstream>
#include <functional>
#include <iterator>
#include <map>
#include <pthread.h>
#include <sys/mman.h>
#include <sys/wait.h>
#include <unistd.h>

static const size_t SAMPLES = 1024;
static const size_t PLENTY = 16 << 20;
static const size_t WANTED = 256 << 10;
static const uint64_t PAINT = 0xA5C3F00D5EED1234;
// Below the frame of the function that paints: left alone, so less than this is not told apart.
static const size_t OWN = 256;

static char *lowest = nullptr, *highest = nullptr;
static char *caller = nullptr;
static bool paints = false;
static size_t depth[CALLS];
static size_t above = 0;

extern "C" __attribute__((noinline)) void stretch_begins(uint32_t) {
    if (!paints) return;
    caller = static_cast<char *>(__builtin_frame_address(0));
    above = std::max(above, size_t(highest - caller));
    for (volatile uint64_t *word = reinterpret_cast<uint64_t *>(lowest); (char *)word < caller - OWN; word++) *word = PAINT;
}

extern "C" __attribute__((noinline)) void stretch_ends(uint32_t call) {
    if (!paints) return;
    const volatile uint64_t *word = reinterpret_cast<uint64_t *>(lowest);
    while ((char *)word < caller - OWN && *word == PAINT) word++;
    depth[call] = std::max(depth[call], size_t(caller - (char *)word));
}

extern "C" void distance_measured() {}

static void *run_it(void *run) {
    (*static_cast<std::function<void()> *>(run))();
    return nullptr;
}

// Runs on a thread that has this much stack, with a page below it that cannot be written.
static void on_thread(size_t stack, std::function<void()> run) {
    size_t page = size_t(sysconf(_SC_PAGESIZE));
    stack = (stack + page - 1) / page * page;
    char *all = static_cast<char *>(mmap(nullptr, stack + page, PROT_READ | PROT_WRITE, MAP_PRIVATE | MAP_ANONYMOUS, -1, 0));
    mprotect(all, page, PROT_NONE);
    lowest = all + page;
    highest = lowest + stack;
    pthread_attr_t with_stack;
    pthread_attr_init(&with_stack);
    pthread_attr_setstack(&with_stack, lowest, stack);
    pthread_t thread;
    pthread_create(&thread, &with_stack, run_it, &run);
    pthread_join(thread, nullptr);
    munmap(all, stack + page);
}

// Whether the calls end on a thread of this much stack.
static bool ends_within(size_t stack, const std::function<void()> &run) {
    std::fflush(stdout);
    pid_t child = fork();
    if (child == 0) {
        paints = false;
        on_thread(stack, run);
        _exit(0);
    }
    int status = 0;
    waitpid(child, &status, 0);
    return WIFEXITED(status) && WEXITSTATUS(status) == 0;
}

// Measures the calls, and prints the stack of each.
static void measure(const std::string &table, const std::string &row, const std::function<void()> &run) {
    std::memset(depth, 0, sizeof depth);
    above = 0;
    paints = true;
    on_thread(PLENTY, run);
    static const char *NAMES[CALLS] = {"new", "add", "drop", "near", "within", "island", "route", "step", "play"};
    for (size_t call = 0; call < CALLS; call++)
        if (depth[call] > 0) std::printf("word\t%s\t%s\t%s\t%zu\n", table.c_str(), row.c_str(), NAMES[call], depth[call]);
    std::printf("word\t%s\t%s\t%s\t%s\n", table.c_str(), row.c_str(), "on 256 KB", ends_within(above + WANTED, run) ? "ends" : "overflows");
}

static std::vector<Pose> equal() { return std::vector<Pose>(SAMPLES, Pose{{7, 0, 0, 0, 0, 0}}); }

static std::vector<Pose> two_in_turn() {
    std::vector<Pose> poses = equal();
    for (size_t i = 1; i < SAMPLES; i += 2) poses[i].angles[0] = 2000;
    return poses;
}

// Each half as far from the first as the one before, joint by joint, and the last ones equal: a split parts one from all others.
static std::vector<Pose> halving() {
    std::vector<Pose> poses(SAMPLES, Pose{{0, 0, 0, 0, 0, 0}});
    for (size_t i = 1; i <= 66; i++) poses[i].angles[(i - 1) / 11] = uint16_t(2048 >> ((i - 1) % 11));
    return poses;
}

// A few equal ones at each place, the places ever nearer to the last one.
static std::vector<Pose> few_equal(size_t equal_ones) {
    std::vector<Pose> poses(SAMPLES);
    for (size_t i = 0; i < SAMPLES; i++) poses[i] = {{uint16_t(2047 - 2 * (i / equal_ones)), 0, 0, 0, 0, 0}};
    return poses;
}

int main(int count, char **words) {
    std::map<std::string, std::vector<Pose>> shapes{{"equal", equal()}, {"spread out", Poses(Shape::spread_out).some(SAMPLES)},
        {"line", Poses(Shape::line).some(SAMPLES)}, {"two in turn", two_in_turn()}, {"halving distances", halving()}, {"few equal", few_equal(9)}};
    for (const auto &[name, poses] : shapes) {
        const Pose *first = poses.data();
        measure("stack", "scan|" + name, [=] { stack_of_scan(first, SAMPLES); });
        measure("road stack", "scan|" + name, [=] { stack_of_road_over_scan(first, SAMPLES); });
    }
    for (auto [degree, bucket] : {std::pair<uint32_t, uint32_t>{2, 2}, {4, 8}, {8, 16}, {8, 32}})
        for (const auto &[name, poses] : shapes) {
            const Pose *first = poses.data();
            uint32_t d = degree, b = bucket;
            std::string row = "tree (" + std::to_string(d) + ", " + std::to_string(b) + ")|" + name;
            measure("stack", row, [=] { stack_of_tree(d, b, first, SAMPLES); });
            measure("road stack", row, [=] { stack_of_road_over_tree(d, b, first, SAMPLES); });
        }
    for (int i = 1; i < count; i++) {
        std::ifstream file(words[i], std::ios::binary);
        std::vector<uint8_t> level((std::istreambuf_iterator<char>(file)), {}), out(65536);
        const uint8_t *bytes = level.data();
        uint8_t *lines = out.data();
        size_t length = level.size();
        measure("play stack", std::string(words[i]).substr(std::string(words[i]).rfind('/') + 1), [=] { our_play(bytes, length, lines, 65536); });
    }
}
