// The features of the city of main.rt.txt.
#pragma once

#include "map.hpp"

constexpr std::uint64_t features_in_city = 25'000;

// How many tiles of zoom 12 the city covers.
constexpr std::uint64_t city_tiles = 19;

// A name of 13 letters.
inline Text name_of(std::uint64_t number) {
    return "feature " + std::to_string(10'000 + number % 90'000);
}

// The upper left corner of a feature: 37 stand beside each other in a tile of zoom 12.
inline World corner_of(std::uint64_t number) {
    const std::uint64_t tile = number % city_tiles;
    const std::uint64_t cell = number / city_tiles;
    return {static_cast<std::uint32_t>((2'000 + tile % 5) * (1U << 20U) + 49'152 + cell % 37 * 26'000),
            static_cast<std::uint32_t>((1'300 + tile / 5) * (1U << 20U) + 49'152 + cell / 37 % 37 * 26'000)};
}

// So many units of a tile of zoom 12 beside and below a corner.
inline World beside(const World& corner, std::uint64_t x, std::uint64_t y) {
    return {static_cast<std::uint32_t>(corner.x + x * 256), static_cast<std::uint32_t>(corner.y + y * 256)};
}

inline MapFeature house(std::uint64_t number) {
    const World corner = corner_of(number);
    const Line ring{beside(corner, 0, 0),   beside(corner, 60, 0),  beside(corner, 60, 40),
                    beside(corner, 30, 40), beside(corner, 30, 70), beside(corner, 0, 70)};
    return {number, "building", 0, 16, std::vector<Polygon>{{ring}},
            {{"class", "residential"}, {"height", number % 30}, {"name", name_of(number)}}};
}

inline MapFeature street(std::uint64_t number) {
    Line line;
    for (std::uint64_t i = 0; i < 40; ++i) {
        line.push_back(beside(corner_of(number), i * 2, (i * 7 + number) % 90));
    }
    return {number, "transportation", 0, 16, std::vector<Line>{line},
            {{"class", "street"}, {"lanes", number % 4}, {"name", name_of(number)}}};
}

inline MapFeature shop(std::uint64_t number) {
    return {number, "poi", 0, 16, Line{beside(corner_of(number), 45, 45)}, {{"class", "shop"}, {"name", name_of(number)}}};
}

// Six houses to three streets to one shop.
inline std::vector<MapFeature> city(std::uint64_t count) {
    std::vector<MapFeature> map;
    map.reserve(count);
    for (std::uint64_t number = 0; number < count; ++number) {
        const std::uint64_t turn = number / city_tiles % 10;
        map.push_back(turn == 0 ? shop(number) : turn < 4 ? street(number) : house(number));
    }
    return map;
}
