// A map of features in memory, and all its tiles, for peer.cpp: C++ over protozero.
//
// What a tile shows of a feature is what model/tiles.py says: coordinates rounded down at the tile's zoom, a point that equals
// the one before it left out, points of the tile's box, chains of the segments that meet it, rings with an area, wound.
#pragma once

#include "../peers/writer.hpp"

#include <algorithm>
#include <limits>
#include <map>
#include <string>

constexpr std::uint32_t extent = 4096;
constexpr std::uint32_t margin = 64;
constexpr std::uint32_t world_zoom = 20;

// A point of the world, which has 2^32 coordinates along each side.
struct World {
    std::uint32_t x;
    std::uint32_t y;
};

using Line = std::vector<World>;
using Polygon = std::vector<Line>;
using Text = std::string;

struct Tag {
    Text key;
    std::variant<Text, std::uint64_t, std::int64_t, bool> value;
};

struct MapFeature {
    std::uint64_t number;
    Text layer;
    std::uint32_t minzoom;
    std::uint32_t maxzoom;
    // Points, lines or polygons.
    std::variant<Line, std::vector<Line>, std::vector<Polygon>> geometry;
    std::vector<Tag> tags;
};

struct TileAt {
    std::uint32_t zoom;
    std::uint32_t column;
    std::uint32_t row;
};

// How many tiles stand before those of a zoom.
inline std::uint64_t first_id(std::uint32_t zoom) {
    return ((std::uint64_t{1} << 2 * zoom) - 1) / 3;
}

// The curve goes through the two upper quarters of a square as through a smaller square that is mirrored; through the lower
// ones as through the square itself.
inline void turn_quarter(std::uint32_t side, std::uint32_t right, std::uint32_t lower, std::uint32_t& column, std::uint32_t& row) {
    if (lower == 0) {
        if (right == 1) {
            column = side - 1 - column;
            row = side - 1 - row;
        }
        std::swap(column, row);
    }
}

// The id of a tile (PMTiles 3).
inline std::uint64_t id_of(TileAt at) {
    std::uint64_t id = first_id(at.zoom);
    for (std::uint32_t level = at.zoom; level-- > 0;) {
        const std::uint32_t right = at.column >> level & 1U;
        const std::uint32_t lower = at.row >> level & 1U;
        id += std::uint64_t{(3 * right) ^ lower} << 2 * level;
        const std::uint32_t side = 1U << level;
        at.column &= side - 1;
        at.row &= side - 1;
        turn_quarter(side, right, lower, at.column, at.row);
    }
    return id;
}

inline TileAt tile_of(std::uint64_t id) {
    TileAt at{0, 0, 0};
    while (first_id(at.zoom + 1) <= id) {
        ++at.zoom;
    }
    std::uint64_t place = id - first_id(at.zoom);
    for (std::uint32_t side = 1; side < 1U << at.zoom; side *= 2) {
        const auto right = static_cast<std::uint32_t>(place >> 1U & 1U);
        const auto lower = static_cast<std::uint32_t>((place ^ right) & 1U);
        turn_quarter(side, right, lower, at.column, at.row);
        at.column += side * right;
        at.row += side * lower;
        place >>= 2U;
    }
    return at;
}

// A bounding box, of points of the world or of a tile.
template <typename T>
struct Box {
    T left = std::numeric_limits<T>::max();
    T top = std::numeric_limits<T>::max();
    T right = std::numeric_limits<T>::min();
    T bottom = std::numeric_limits<T>::min();

    void add(T x, T y) {
        left = std::min(left, x);
        top = std::min(top, y);
        right = std::max(right, x);
        bottom = std::max(bottom, y);
    }
};

inline void add(Box<std::uint32_t>& box, const World& point) {
    box.add(point.x, point.y);
}

template <typename T>
void add(Box<std::uint32_t>& box, const std::vector<T>& list) {
    for (const T& each : list) {
        add(box, each);
    }
}

inline bool meets_tile(const Box<std::int64_t>& box) {
    constexpr std::int64_t start = -std::int64_t{margin};
    constexpr std::int64_t end = extent + margin;
    return box.left <= end && start <= box.right && box.top <= end && start <= box.bottom;
}

// What a tile shows of a feature: the points of all parts, and how many stand up to the end of each part.
struct Shown {
    std::vector<Point> points;
    std::vector<std::size_t> ends;

    std::size_t start() const { return ends.empty() ? 0 : ends.back(); }
};

inline Point point_in(const TileAt& at, const World& point) {
    const std::uint32_t shift = world_zoom - at.zoom;
    return {std::int64_t{point.x >> shift} - std::int64_t{extent} * at.column, std::int64_t{point.y >> shift} - std::int64_t{extent} * at.row};
}

inline bool is_same(const Point& one, const Point& other) {
    return one.x == other.x && one.y == other.y;
}

inline void end_part(Shown& shown) {
    if (shown.points.size() > shown.start()) {
        shown.ends.push_back(shown.points.size());
    }
}

inline void cut(const TileAt& at, const Line& points, Shown& shown) {
    std::optional<Point> before;
    for (const World& point : points) {
        const Point here = point_in(at, point);
        if (!(before && is_same(*before, here)) && meets_tile({here.x, here.y, here.x, here.y})) {
            shown.points.push_back(here);
        }
        before = here;
    }
    end_part(shown);
}

inline void cut(const TileAt& at, const std::vector<Line>& lines, Shown& shown) {
    for (const Line& line : lines) {
        Point before = point_in(at, line.front());
        for (const World& point : line) {
            const Point here = point_in(at, point);
            if (is_same(before, here)) {
                continue;
            }
            if (meets_tile({std::min(before.x, here.x), std::min(before.y, here.y), std::max(before.x, here.x), std::max(before.y, here.y)})) {
                if (shown.points.size() == shown.start()) {
                    shown.points.push_back(before);
                }
                shown.points.push_back(here);
            } else {
                end_part(shown);
            }
            before = here;
        }
        end_part(shown);
    }
}

// Twice the area of a ring, above 0 where it goes rightwards, then downwards.
inline __int128 twice_area(const Point* first, const Point* end) {
    __int128 sum = 0;
    const Point* before = end - 1;
    for (const Point* here = first; here != end; ++here) {
        sum += static_cast<__int128>(before->x) * here->y - static_cast<__int128>(here->x) * before->y;
        before = here;
    }
    return sum;
}

// Appends a ring, if it is shown; an outer one has to meet the tile.
inline bool cut_ring(const TileAt& at, const Line& ring, bool is_outer, Shown& shown) {
    const std::size_t start = shown.start();
    Box<std::int64_t> box;
    for (const World& point : ring) {
        const Point here = point_in(at, point);
        if (shown.points.size() == start || !is_same(shown.points.back(), here)) {
            shown.points.push_back(here);
            box.add(here.x, here.y);
        }
    }
    if (is_same(shown.points[start], shown.points.back())) {
        shown.points.pop_back();
    }
    const bool is_ring = shown.points.size() >= start + 3 && (!is_outer || meets_tile(box));
    const __int128 area = is_ring ? twice_area(&shown.points[start], shown.points.data() + shown.points.size()) : 0;
    if (area == 0) {
        shown.points.resize(start);
        return false;
    }
    if ((area > 0) != is_outer) {
        std::reverse(shown.points.begin() + static_cast<std::ptrdiff_t>(start) + 1, shown.points.end());
    }
    end_part(shown);
    return true;
}

inline void cut(const TileAt& at, const std::vector<Polygon>& polygons, Shown& shown) {
    for (const Polygon& polygon : polygons) {
        if (cut_ring(at, polygon.front(), true, shown)) {
            for (std::size_t i = 1; i < polygon.size(); ++i) {
                cut_ring(at, polygon[i], false, shown);
            }
        }
    }
}

// A layer of a tile, while features are added.
struct OpenLayer {
    std::string bytes;
    Pool<std::string_view> keys;
    Pool<Value> values;
};

inline void put_feature(OpenLayer& layer, const MapFeature& feature, const Shown& shown) {
    pbf_writer fields{layer.bytes};
    pbf_writer message{fields, 2};
    message.add_uint64(1, feature.number);
    if (!feature.tags.empty()) {
        protozero::packed_field_uint32 field{message, 2};
        for (const auto& tag : feature.tags) {
            field.add_element(layer.keys.index(tag.key));
            field.add_element(layer.values.index(std::visit([](const auto& value) { return Value{value}; }, tag.value)));
        }
    }
    const std::uint64_t kind = feature.geometry.index() + 1;
    message.add_enum(3, static_cast<std::int32_t>(kind));
    protozero::packed_field_uint32 field{message, 4};
    Point cursor{0, 0};
    std::size_t start = 0;
    // Points are one part.
    for (const std::size_t end : shown.ends) {
        put_part(field, kind, &shown.points[start], end - start, cursor);
        start = end;
    }
}

// The layers of a tile by their names. One without bytes has no features.
using Layers = std::map<std::string_view, OpenLayer>;

inline OpenLayer& layer_of(Layers& layers, const Text& name) {
    OpenLayer& layer = layers[name];
    if (layer.bytes.empty()) {
        pbf_writer{layer.bytes}.add_string(1, name);
    }
    return layer;
}

// Adds what a tile shows of a feature, and says whether that is anything.
inline bool add_shown(Layers& layers, const MapFeature& feature, const TileAt& at, Shown& shown) {
    if (at.zoom < feature.minzoom || feature.maxzoom < at.zoom) {
        return false;
    }
    shown.points.clear();
    shown.ends.clear();
    std::visit([&](const auto& geometry) { cut(at, geometry, shown); }, feature.geometry);
    if (shown.ends.empty()) {
        return false;
    }
    put_feature(layer_of(layers, feature.layer), feature, shown);
    return true;
}

// Leaves in `bytes` the tile of the layers, which have no features then.
inline void take_tile(Layers& layers, std::string& bytes) {
    bytes.clear();
    for (auto& [name, layer] : layers) {
        if (layer.bytes.empty()) {
            continue;
        }
        pbf_writer fields{layer.bytes};
        put_end(fields, layer.keys, layer.values, extent, 2);
        pbf_writer{bytes}.add_message(3, layer.bytes);
        layer.bytes.clear();
        layer.keys.clear();
        layer.values.clear();
    }
}

// A tile's id, and the place of a feature in the map.
using Pair = std::pair<std::uint64_t, std::size_t>;

inline std::uint32_t first_met(std::uint32_t least) {
    return least < extent + margin ? 0 : (least - margin - 1) / extent;
}

inline std::uint32_t last_met(std::uint32_t greatest, std::uint32_t zoom) {
    return std::min((greatest + margin) / extent, (1U << zoom) - 1);
}

// Appends a pair for each tile whose box meets the feature's.
inline void add_pairs(const MapFeature& feature, std::size_t place, std::vector<Pair>& pairs) {
    Box<std::uint32_t> box;
    std::visit([&](const auto& geometry) { add(box, geometry); }, feature.geometry);
    for (std::uint32_t zoom = feature.minzoom; zoom <= feature.maxzoom; ++zoom) {
        const std::uint32_t shift = world_zoom - zoom;
        const std::uint32_t right = last_met(box.right >> shift, zoom);
        const std::uint32_t bottom = last_met(box.bottom >> shift, zoom);
        for (std::uint32_t row = first_met(box.top >> shift); row <= bottom; ++row) {
            for (std::uint32_t column = first_met(box.left >> shift); column <= right; ++column) {
                pairs.emplace_back(id_of({zoom, column, row}), place);
            }
        }
    }
}

using Tiles = std::vector<std::pair<std::uint64_t, std::string>>;

// All tiles that show something of a map, whose features ascend by number.
inline Tiles tiles_of(const std::vector<MapFeature>& map) {
    std::vector<Pair> pairs;
    for (std::size_t place = 0; place < map.size(); ++place) {
        add_pairs(map[place], place, pairs);
    }
    std::sort(pairs.begin(), pairs.end());
    Tiles tiles;
    Layers layers;
    Shown shown;
    std::string bytes;
    for (auto pair = pairs.begin(); pair != pairs.end();) {
        const std::uint64_t id = pair->first;
        const TileAt at = tile_of(id);
        for (; pair != pairs.end() && pair->first == id; ++pair) {
            add_shown(layers, map[pair->second], at, shown);
        }
        take_tile(layers, bytes);
        if (!bytes.empty()) {
            tiles.emplace_back(id, bytes);
        }
    }
    return tiles;
}
