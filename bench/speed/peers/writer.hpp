// The fields of a tile, for the other programs of codec/ and city/: C++ over protozero.
#pragma once

#include "tile.hpp"

#include <unordered_map>

#include <protozero/pbf_writer.hpp>

using protozero::pbf_writer;

// Entries in the order of their first use, each once.
template <typename T>
struct Pool {
    std::vector<T> entries;
    std::unordered_map<T, std::uint32_t> indices;

    std::uint32_t index(const T& entry) {
        const auto [at, is_new] = indices.try_emplace(entry, static_cast<std::uint32_t>(entries.size()));
        if (is_new) {
            entries.push_back(entry);
        }
        return at->second;
    }

    // A new table: to empty one takes time by the most that it has held.
    void clear() {
        entries.clear();
        indices = {};
    }
};

inline void put_value(pbf_writer& layer, const Value& value) {
    pbf_writer message{layer, 4};
    switch (value.index()) {
        case 0: message.add_string(1, std::get<0>(value).data(), std::get<0>(value).size()); break;
        case 1: message.add_uint64(5, std::get<1>(value)); break;
        case 2: message.add_sint64(6, std::get<2>(value)); break;
        case 3: message.add_bool(7, std::get<3>(value)); break;
        case 4: message.add_float(2, std::get<4>(value)); break;
        default: message.add_double(3, std::get<5>(value));
    }
}

inline void put_point(protozero::packed_field_uint32& field, const Point& point, Point& cursor) {
    field.add_element(protozero::encode_zigzag32(static_cast<std::int32_t>(point.x - cursor.x)));
    field.add_element(protozero::encode_zigzag32(static_cast<std::int32_t>(point.y - cursor.y)));
    cursor = point;
}

inline void put_command(protozero::packed_field_uint32& field, std::uint32_t id, std::size_t count) {
    field.add_element(static_cast<std::uint32_t>(count) << 3U | id);
}

// Appends points, a line, or a ring, by its kind.
inline void put_part(protozero::packed_field_uint32& field, std::uint64_t kind, const Point* points, std::size_t count, Point& cursor) {
    put_command(field, move_to, kind == 1 ? count : 1);
    for (std::size_t i = 0; i < count; ++i) {
        if (kind != 1 && i == 1) {
            put_command(field, line_to, count - 1);
        }
        put_point(field, points[i], cursor);
    }
    if (kind == 3) {
        put_command(field, close_path, 1);
    }
}

// Appends the fields of a layer that stand behind its features.
inline void put_end(pbf_writer& layer, const Pool<std::string_view>& keys, const Pool<Value>& values, std::uint32_t extent, std::uint32_t version) {
    for (const auto& key : keys.entries) {
        layer.add_string(3, key.data(), key.size());
    }
    for (const auto& value : values.entries) {
        put_value(layer, value);
    }
    layer.add_uint32(5, extent);
    layer.add_uint32(15, version);
}
