// The other program of this benchmark: makes all tiles of the same city and an archive of them, writes it into a file by one write,
// and syncs. Its directory has no leaves, which the standard wouldn't take at this size: that is less work than the product's.
#include "../city/features.hpp"

#include <cstdio>
#include <ctime>
#include <fcntl.h>
#include <unistd.h>
#include <unordered_map>

#include <protozero/varint.hpp>

void put(std::string& bytes, std::uint64_t number) {
    protozero::write_varint(std::back_inserter(bytes), number);
}

struct Run {
    std::uint64_t id;
    std::uint64_t count;
    std::uint64_t offset;
    std::uint64_t length;
};

// Runs of equal tiles of consecutive ids, each content once.
std::string archive_of(const Tiles& tiles) {
    std::vector<Run> runs;
    std::string contents;
    std::unordered_map<std::string_view, std::uint64_t> places;
    for (const auto& [id, content] : tiles) {
        const auto [at, is_new] = places.try_emplace(content, contents.size());
        if (is_new) {
            contents += content;
        }
        if (!runs.empty() && runs.back().id + runs.back().count == id && runs.back().offset == at->second) {
            ++runs.back().count;
        } else {
            runs.push_back({id, 1, at->second, content.size()});
        }
    }
    std::string bytes(127, 'x');
    put(bytes, runs.size());
    std::uint64_t last = 0;
    for (const Run& run : runs) {
        put(bytes, run.id - last);
        last = run.id;
    }
    for (const Run& run : runs) {
        put(bytes, run.count);
    }
    for (const Run& run : runs) {
        put(bytes, run.length);
    }
    for (const Run& run : runs) {
        put(bytes, run.offset + 1);
    }
    return bytes + contents;
}

std::uint64_t wall_nanoseconds() {
    timespec now{};
    clock_gettime(CLOCK_MONOTONIC, &now);
    return static_cast<std::uint64_t>(now.tv_sec) * 1'000'000'000U + static_cast<std::uint64_t>(now.tv_nsec);
}

// A point with five tags in the area of the city.
MapFeature tagged_point(std::uint64_t number) {
    const auto x = static_cast<std::uint32_t>((std::uint64_t{2'000} << 20U) + number * 40'503 * 17 % (std::uint64_t{5} << 20U));
    const auto y = static_cast<std::uint32_t>((std::uint64_t{1'300} << 20U) + number * 65'521 * 13 % (std::uint64_t{4} << 20U));
    return {number, "parcels", 0, 14, Line{World{x, y}},
            {{"class", "parcel"}, {"count", number % 100}, {"depth", number % 7}, {"name", name_of(number)}, {"open", "yes"}}};
}

std::vector<MapFeature> tagged_points(std::uint64_t count) {
    std::vector<MapFeature> map;
    map.reserve(count);
    for (std::uint64_t number = 0; number < count; ++number) {
        map.push_back(tagged_point(number));
    }
    return map;
}

std::uint64_t cpu_nanoseconds() {
    timespec now{};
    clock_gettime(CLOCK_THREAD_CPUTIME_ID, &now);
    return static_cast<std::uint64_t>(now.tv_sec) * 1'000'000'000U + static_cast<std::uint64_t>(now.tv_nsec);
}

// A publication alone, and its processor time.
int publish_alone(const std::string& folder, bool of_city) {
    const std::vector<MapFeature> map = of_city ? city(features_in_city) : tagged_points(100'000);
    const int file = open((folder + "/peer").c_str(), O_CREAT | O_TRUNC | O_WRONLY, 0600);
    const std::uint64_t start = cpu_nanoseconds();
    const std::string archive = archive_of(tiles_of(map));
    if (file < 0 || write(file, archive.data(), archive.size()) != static_cast<ssize_t>(archive.size()) || fsync(file) != 0) {
        std::fprintf(stderr, "not written\n");
        return 1;
    }
    const std::uint64_t took = cpu_nanoseconds() - start;
    std::printf("a publication of %s, processor time: %llu us\n", of_city ? "the city" : "100000 points", static_cast<unsigned long long>(took / 1'000));
    return 0;
}

int main(int count, char** words) {
    const std::string folder = count > 1 ? words[1] : ".";
    if (count > 2) {
        return publish_alone(folder, std::string{words[2]} == "city");
    }
    const std::vector<MapFeature> map = city(features_in_city);
    const int file = open((folder + "/peer").c_str(), O_CREAT | O_TRUNC | O_WRONLY, 0600);
    const std::uint64_t start = wall_nanoseconds();
    const std::string archive = archive_of(tiles_of(map));
    if (file < 0 || write(file, archive.data(), archive.size()) != static_cast<ssize_t>(archive.size()) || fsync(file) != 0) {
        std::fprintf(stderr, "not written\n");
        return 1;
    }
    const std::uint64_t took = wall_nanoseconds() - start;
    std::printf("a publication of 25000 features over a file: %llu us\n", static_cast<unsigned long long>(took / 1'000));
    return 0;
}
