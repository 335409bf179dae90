// The other program of this benchmark: makes all tiles of the same city, and judges the archive that main.rt.txt leaves in a
// folder. The archive's tiles must be those that it makes, byte by byte.
#include "../peers/archive.hpp"
#include "../peers/clock.hpp"
#include "features.hpp"

#include <cstdio>

// The most memory that the process has had, in KB, by what Linux tells.
std::uint64_t peak_memory() {
    std::ifstream in{"/proc/self/status"};
    for (std::string word; in >> word;) {
        std::uint64_t told = 0;
        if (word == "VmHWM:" && in >> told) {
            return told;
        }
    }
    refuse("no peak of memory");
}

// The tiles of an archive must be these.
void check_same(const Archive& archive, const Tiles& tiles) {
    std::vector<Entry> entries;
    list(archive, archive.root, 0, tile_ids, most_leaves, entries);
    auto tile = tiles.begin();
    for (const Entry& entry : entries) {
        const std::string_view content = within(within(archive.bytes, archive.header.tiles), entry);
        for (std::uint32_t turn = 0; turn < entry.run; ++turn, ++tile) {
            if (tile == tiles.end() || tile->first != entry.id + turn || tile->second != content) {
                refuse("another tile");
            }
        }
    }
    if (tile != tiles.end()) {
        refuse("a tile too few");
    }
}

void told(const std::string& what, std::uint64_t number, const char* unit) {
    std::printf("%s: %llu %s\n", what.c_str(), static_cast<unsigned long long>(number), unit);
}

int main(int count, char** words) try {
    const std::string folder = count > 1 ? words[1] : ".";
    const std::vector<MapFeature> map = city(features_in_city);
    const std::uint64_t start = processor_nanoseconds();
    const Tiles tiles = tiles_of(map);
    const std::uint64_t took = processor_nanoseconds() - start;
    const std::uint64_t peak = peak_memory();
    std::size_t bytes = 0;
    for (const auto& tile : tiles) {
        bytes += tile.second.size();
    }
    told("tiles of a city of " + std::to_string(features_in_city) + " features, " + std::to_string(tiles.size()) + " tiles, " +
             std::to_string(bytes) + " bytes",
         took / 1'000, "us");
    told("peak memory behind the tiles", peak, "KB");
    const std::string archive = bytes_of(folder + "/city.pmtiles");
    check_same(Archive{archive}, tiles);
    const std::uint64_t opened = processor_nanoseconds();
    judge(archive);
    const std::uint64_t judged = processor_nanoseconds() - opened;
    told("judging its archive of " + std::to_string(archive.size()) + " bytes", judged / 1'000, "us");
    return 0;
} catch (const std::exception& fault) {
    std::fprintf(stderr, "%s\n", fault.what());
    return 1;
}
