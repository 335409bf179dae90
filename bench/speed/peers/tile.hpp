// Tiles as lists, and their reader, for the other programs of codec/ and archives/: C++ over protozero.
//
// What is read becomes the lists that mvt_layer::read_tile makes: layers, features, tags, points. Texts are views into the
// tile, as there. Wire types, commands and counts of geometry, indices of tags, names, versions and extents are checked;
// UTF-8, and that no feature has a key twice, are not: read_tile checks these too.
#pragma once

#include <cstdint>
#include <optional>
#include <stdexcept>
#include <string_view>
#include <utility>
#include <variant>
#include <vector>

#include <protozero/pbf_reader.hpp>
#include <protozero/varint.hpp>

using protozero::pbf_reader;
using protozero::pbf_wire_type;
using protozero::tag_and_type;

using Value = std::variant<std::string_view, std::uint64_t, std::int64_t, bool, float, double>;

struct Point {
    std::int64_t x;
    std::int64_t y;
};

using Points = std::vector<Point>;

struct Feature {
    std::optional<std::uint64_t> id;
    std::vector<std::pair<std::string_view, Value>> tags;
    std::uint64_t kind = 0;
    // One list of points for a feature of points, else one for each line or ring, a ring without its first point again.
    std::vector<Points> parts;
};

struct Layer {
    std::string_view name;
    std::uint32_t version = 1;
    std::uint32_t extent = 4096;
    std::vector<Feature> features;
};

constexpr std::uint32_t move_to = 1;
constexpr std::uint32_t line_to = 2;
constexpr std::uint32_t close_path = 7;

// Packed integers of 32 bits.
struct Integers {
    const char* at;
    const char* end;

    explicit Integers(const protozero::data_view& bytes) : at(bytes.data()), end(at + bytes.size()) {}
};

inline std::string_view text(const protozero::data_view& view) {
    return {view.data(), view.size()};
}

// A number that isn't negative is a natural one, whichever field tells it.
inline Value number(std::int64_t told) {
    if (told < 0) {
        return told;
    }
    return static_cast<std::uint64_t>(told);
}

inline Value value_of(pbf_reader message) {
    std::optional<Value> value;
    while (message.next()) {
        switch (message.tag_and_type()) {
            case tag_and_type(1, pbf_wire_type::length_delimited): value = text(message.get_view()); break;
            case tag_and_type(2, pbf_wire_type::fixed32): value = message.get_float(); break;
            case tag_and_type(3, pbf_wire_type::fixed64): value = message.get_double(); break;
            case tag_and_type(4, pbf_wire_type::varint): value = number(message.get_int64()); break;
            case tag_and_type(5, pbf_wire_type::varint): value = message.get_uint64(); break;
            case tag_and_type(6, pbf_wire_type::varint): value = number(message.get_sint64()); break;
            case tag_and_type(7, pbf_wire_type::varint): value = message.get_bool(); break;
            default: message.skip();
        }
    }
    if (!value) {
        throw std::runtime_error("a value without a value");
    }
    return *value;
}

inline std::uint32_t next(Integers& integers) {
    const std::uint64_t integer = protozero::decode_varint(&integers.at, integers.end);
    if (integer >> 32U != 0) {
        throw std::runtime_error("a number of 32 bits");
    }
    return static_cast<std::uint32_t>(integer);
}

// Appends so many points, each told from the cursor. At most so many can stand in the geometry.
inline void read_points(Integers& integers, std::uint32_t count, std::size_t most, Point& cursor, Points& points) {
    if (count > most) {
        throw std::runtime_error("more points than the integers tell");
    }
    points.reserve(points.size() + count);
    for (std::uint32_t i = 0; i < count; ++i) {
        cursor.x += protozero::decode_zigzag32(next(integers));
        cursor.y += protozero::decode_zigzag32(next(integers));
        points.push_back(cursor);
    }
}

inline std::uint32_t command(Integers& integers, std::uint32_t id) {
    const std::uint32_t integer = next(integers);
    if ((integer & 7U) != id || integer >> 3U == 0) {
        throw std::runtime_error("another command");
    }
    return integer >> 3U;
}

inline std::vector<Points> geometry_of(std::uint64_t kind, const protozero::data_view& bytes) {
    Integers integers{bytes};
    // Each takes two bytes at least.
    const std::size_t most = bytes.size() / 2;
    std::vector<Points> parts;
    Point cursor{0, 0};
    if (kind == 1) {
        parts.emplace_back();
        read_points(integers, command(integers, move_to), most, cursor, parts.back());
        if (integers.at != integers.end) {
            throw std::runtime_error("something behind the points");
        }
        return parts;
    }
    if (integers.at == integers.end) {
        throw std::runtime_error("no geometry");
    }
    while (integers.at != integers.end) {
        if (command(integers, move_to) != 1) {
            throw std::runtime_error("a part that begins twice");
        }
        parts.emplace_back();
        read_points(integers, 1, most, cursor, parts.back());
        const std::uint32_t count = command(integers, line_to);
        if (kind == 3 && count < 2) {
            throw std::runtime_error("a ring of fewer than three points");
        }
        read_points(integers, count, most, cursor, parts.back());
        if (kind == 3 && command(integers, close_path) != 1) {
            throw std::runtime_error("a ring that is closed twice");
        }
    }
    return parts;
}

inline std::vector<std::pair<std::string_view, Value>> tags_of(Integers indices, const std::vector<std::string_view>& keys, const std::vector<Value>& values) {
    std::vector<std::pair<std::string_view, Value>> tags;
    while (indices.at != indices.end) {
        const std::uint32_t key = next(indices);
        const std::uint32_t value = next(indices);
        tags.emplace_back(keys.at(key), values.at(value));
    }
    return tags;
}

inline Feature feature_of(pbf_reader message, const std::vector<std::string_view>& keys, const std::vector<Value>& values) {
    Feature feature;
    protozero::data_view indices;
    protozero::data_view geometry;
    while (message.next()) {
        switch (message.tag_and_type()) {
            case tag_and_type(1, pbf_wire_type::varint): feature.id = message.get_uint64(); break;
            case tag_and_type(2, pbf_wire_type::length_delimited): indices = message.get_view(); break;
            case tag_and_type(3, pbf_wire_type::varint): feature.kind = message.get_uint64(); break;
            case tag_and_type(4, pbf_wire_type::length_delimited): geometry = message.get_view(); break;
            default: message.skip();
        }
    }
    if (feature.kind < 1 || feature.kind > 3) {
        throw std::runtime_error("a feature of no kind");
    }
    feature.tags = tags_of(Integers{indices}, keys, values);
    feature.parts = geometry_of(feature.kind, geometry);
    return feature;
}

inline Layer layer_of(pbf_reader message) {
    Layer layer;
    std::optional<std::string_view> name;
    std::vector<std::string_view> keys;
    std::vector<Value> values;
    std::vector<protozero::data_view> features;
    while (message.next()) {
        switch (message.tag_and_type()) {
            case tag_and_type(1, pbf_wire_type::length_delimited): name = text(message.get_view()); break;
            case tag_and_type(2, pbf_wire_type::length_delimited): features.push_back(message.get_view()); break;
            case tag_and_type(3, pbf_wire_type::length_delimited): keys.push_back(text(message.get_view())); break;
            case tag_and_type(4, pbf_wire_type::length_delimited): values.push_back(value_of(message.get_message())); break;
            case tag_and_type(5, pbf_wire_type::varint): layer.extent = message.get_uint32(); break;
            case tag_and_type(15, pbf_wire_type::varint): layer.version = message.get_uint32(); break;
            default: message.skip();
        }
    }
    if (!name || layer.extent == 0 || layer.version < 1 || layer.version > 2) {
        throw std::runtime_error("no layer");
    }
    layer.name = *name;
    layer.features.reserve(features.size());
    for (const auto& view : features) {
        layer.features.push_back(feature_of(pbf_reader{view}, keys, values));
    }
    return layer;
}

inline std::vector<Layer> read_tile(std::string_view bytes) {
    std::vector<Layer> layers;
    pbf_reader message{bytes.data(), bytes.size()};
    while (message.next(3, pbf_wire_type::length_delimited)) {
        layers.push_back(layer_of(message.get_message()));
        for (std::size_t i = 0; i + 1 < layers.size(); ++i) {
            if (layers[i].name == layers.back().name) {
                throw std::runtime_error("two layers of one name");
            }
        }
    }
    return layers;
}
