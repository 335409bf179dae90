// The other program of this benchmark: tiles of the same maps, from a map that is edited (peers/map.hpp). Each tile is asked for once, or a
// city's first tile some times, as main.rt.txt does.
#include "../city/features.hpp"
#include "../peers/clock.hpp"
#include "../peers/map.hpp"

#include <cstdio>

constexpr std::uint64_t tiles_asked = 100;

// A point with three tags, in a cell of a plain map: each tile of zoom 8 has 16 cells, one tile after the other.
MapFeature plain_point(std::uint64_t number, std::uint64_t cell) {
    const std::uint64_t tile = cell / 16;
    const World at{static_cast<std::uint32_t>(((tile % 256) << 24U) + ((cell % 4) << 22U) + (1U << 21U)),
                   static_cast<std::uint32_t>(((tile / 256) << 24U) + ((cell / 4 % 4) << 22U) + (1U << 21U))};
    return {number, "poi", 0, 16, Line{at}, {{"class", "garden"}, {"count", number % 100}, {"name", name_of(number)}}};
}

// The numbers below a count in no order, which is always the same.
std::vector<std::uint64_t> shuffled(std::uint64_t count) {
    std::vector<std::uint64_t> numbers(count);
    for (std::uint64_t number = 0; number < count; ++number) {
        numbers[number] = number;
    }
    std::uint64_t state = 38;
    for (std::uint64_t left = count; left-- > 1;) {
        state = state * 6'364'136'223'846'793'005U + 1'442'695'040'888'963'407U;
        std::swap(numbers[left], numbers[(state >> 33U) % (left + 1)]);
    }
    return numbers;
}

enum class Numbers { by_place, mixed, mixed_put };

EditedMap plain_map(std::uint64_t count, Numbers numbers) {
    EditedMap map;
    const auto cell = [&](std::uint64_t number) { return numbers == Numbers::by_place ? number : number * 7'919 % count; };
    if (numbers == Numbers::mixed_put) {
        for (const std::uint64_t number : shuffled(count)) {
            map.put(plain_point(number, cell(number)));
        }
        return map;
    }
    std::vector<MapFeature> features;
    features.reserve(count);
    for (std::uint64_t number = 0; number < count; ++number) {
        features.push_back(plain_point(number, cell(number)));
    }
    map.put_all(std::move(features));
    return map;
}

struct Shows {
    std::uint64_t features = 0;
    std::uint64_t bytes = 0;
    std::uint64_t took = 0;
};

void show(EditedMap& map, const TileAt& at, Shows& shows) {
    std::string bytes;
    const std::uint64_t start = processor_nanoseconds();
    const std::size_t features = map.tile(at, bytes);
    shows.took += processor_nanoseconds() - start;
    shows.features += features;
    shows.bytes += bytes.size();
}

void small_tiles(std::uint64_t count, Numbers numbers, const char* name) {
    EditedMap map = plain_map(count, numbers);
    Shows shows;
    for (std::uint64_t turn = 0; turn < tiles_asked; ++turn) {
        const std::uint64_t tile = turn * 104'729 % (count / 16);
        show(map, {8, static_cast<std::uint32_t>(tile % 256), static_cast<std::uint32_t>(tile / 256 % 256)}, shows);
    }
    std::printf("a tile of %llu features from a map of %llu, %s: %llu ns\n", static_cast<unsigned long long>(shows.features / tiles_asked),
                static_cast<unsigned long long>(count), name, static_cast<unsigned long long>(shows.took / tiles_asked));
}

void city_tile(const char* name, std::uint64_t count, bool is_whole) {
    EditedMap map;
    std::vector<MapFeature> features = city(count);
    if (!is_whole) {
        features.erase(std::remove_if(features.begin(), features.end(), [](const MapFeature& one) { return one.number % city_tiles != 0; }), features.end());
    }
    map.put_all(std::move(features));
    Shows shows;
    for (std::uint64_t turn = 0; turn < tiles_asked; ++turn) {
        show(map, {12, 2'000, 1'300}, shows);
    }
    std::printf("a tile of %llu features and %llu bytes from %s: %llu ns\n", static_cast<unsigned long long>(shows.features / tiles_asked),
                static_cast<unsigned long long>(shows.bytes / tiles_asked), name, static_cast<unsigned long long>(shows.took / tiles_asked));
}

int main() {
    const std::pair<Numbers, const char*> orders[] = {
        {Numbers::by_place, "numbers by place"}, {Numbers::mixed, "numbers in no order"}, {Numbers::mixed_put, "put in no order"}};
    for (const std::uint64_t count : {1'000, 100'000, 1'000'000}) {
        for (const auto& [numbers, name] : orders) {
            small_tiles(count, numbers, name);
        }
    }
    city_tile("a city of 6479", 6'479, true);
    city_tile("a city of 25000", features_in_city, true);
    city_tile("a map of these alone", features_in_city, false);
    return 0;
}
