// The other program of this benchmark: judges the archives that main.rt.txt leaves in a folder, and looks tiles up, as
// peers/archive.hpp says.
#include "../peers/archive.hpp"
#include "../peers/clock.hpp"

#include <cstdio>

void measure(const std::string& folder, std::uint64_t count, std::uint64_t all, std::uint64_t look_ups) {
    const std::string bytes = bytes_of(folder + "/" + std::to_string(count) + ".pmtiles");
    const std::uint64_t start = processor_nanoseconds();
    for (std::uint64_t turn = 0; turn < all / count; ++turn) {
        judge(bytes);
    }
    const std::uint64_t judged = processor_nanoseconds() - start;
    const Archive archive{bytes};
    const std::uint64_t opened = processor_nanoseconds();
    std::uint64_t id = 1;
    for (std::uint64_t turn = 0; turn < look_ups; ++turn) {
        id = id * 48'271 % 2'147'483'647;
        if (!tile(archive, id % count)) {
            refuse("no tile");
        }
    }
    const std::uint64_t looked = processor_nanoseconds() - opened;
    const auto told = [&](const char* what, std::uint64_t time, std::uint64_t times) {
        std::printf("%llu tiles, %zu bytes, %s: %llu ns\n", static_cast<unsigned long long>(count), bytes.size(), what,
                    static_cast<unsigned long long>(time / times));
    };
    told("judge, for each tile", judged, all);
    told("look-up", looked, look_ups);
}

int main(int count, char** words) try {
    const std::string folder = count > 1 ? words[1] : ".";
    for (const std::uint64_t tiles : {1'000, 10'000, 100'000}) {
        measure(folder, tiles, 100'000, 20'000);
    }
    return 0;
} catch (const std::exception& fault) {
    std::fprintf(stderr, "%s\n", fault.what());
    return 1;
}
