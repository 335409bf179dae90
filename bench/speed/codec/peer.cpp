// The other program of this benchmark: reads the tiles that main.rt.txt leaves in a folder, and writes them again, with protozero; and
// makes them of the same maps (peers/map.hpp). The bytes that it writes must be those that it has read.
#include "../peers/clock.hpp"
#include "../peers/map.hpp"

#include <cstdio>
#include <fstream>
#include <iterator>
#include <string>

void put_geometry(pbf_writer& message, const Feature& feature) {
    protozero::packed_field_uint32 field{message, 4};
    Point cursor{0, 0};
    for (const Points& part : feature.parts) {
        put_part(field, feature.kind, part.data(), part.size(), cursor);
    }
}

void put_feature(pbf_writer& layer, const Feature& feature, Pool<std::string_view>& keys, Pool<Value>& values) {
    pbf_writer message{layer, 2};
    if (feature.id) {
        message.add_uint64(1, *feature.id);
    }
    if (!feature.tags.empty()) {
        protozero::packed_field_uint32 field{message, 2};
        for (const auto& [key, value] : feature.tags) {
            field.add_element(keys.index(key));
            field.add_element(values.index(value));
        }
    }
    message.add_enum(3, static_cast<std::int32_t>(feature.kind));
    put_geometry(message, feature);
}

void put_layer(pbf_writer& tile, const Layer& layer) {
    pbf_writer message{tile, 3};
    Pool<std::string_view> keys;
    Pool<Value> values;
    message.add_string(1, layer.name.data(), layer.name.size());
    for (const Feature& feature : layer.features) {
        put_feature(message, feature, keys, values);
    }
    put_end(message, keys, values, layer.extent, layer.version);
}

std::string write_tile(const std::vector<Layer>& layers) {
    std::string bytes;
    pbf_writer tile{bytes};
    for (const Layer& layer : layers) {
        put_layer(tile, layer);
    }
    return bytes;
}

// A place of the world for each number.
World place(std::uint64_t number) {
    return {static_cast<std::uint32_t>((number % 4'096) << 20U), static_cast<std::uint32_t>((number / 4'096 % 4'096) << 20U)};
}

// A point with five tags, two of which differ from feature to feature.
MapFeature tagged_point(std::uint64_t number) {
    return {number, "parcels", 0, 0, Line{place(number)},
            {{"class", "parcel"}, {"count", number % 100}, {"depth", std::int64_t{-1}}, {"name", "feature " + std::to_string(number)}, {"open", number % 2 == 0}}};
}

MapFeature long_line(std::uint64_t number) {
    Line line;
    for (std::uint64_t at = 0; at < 4'000; ++at) {
        line.push_back(place(at * 4'097 + number));
    }
    return {number, "roads", 0, 0, std::vector<Line>{line}, {}};
}

// Makes the one tile of a map so often that it meets so many features: the nanoseconds together.
std::uint64_t made(MapFeature (*feature)(std::uint64_t), const std::string& wanted, std::uint64_t count, std::uint64_t features) {
    std::vector<MapFeature> listed;
    for (std::uint64_t number = 0; number < count; ++number) {
        listed.push_back(feature(number));
    }
    EditedMap map;
    map.put_all(std::move(listed));
    std::uint64_t took = 0;
    for (std::uint64_t turn = 0; turn < features / count; ++turn) {
        std::string bytes;
        const std::uint64_t start = processor_nanoseconds();
        map.tile({0, 0, 0}, bytes);
        took += processor_nanoseconds() - start;
        if (bytes != wanted) {
            throw std::runtime_error("another tile");
        }
    }
    return took;
}

// Reads and writes a tile so often that it meets so many features, and prints what a feature took.
void measure(const std::string& folder, const char* file, const char* name, MapFeature (*feature)(std::uint64_t), std::uint64_t count,
             std::uint64_t features) {
    std::ifstream in{folder + "/" + file + "_" + std::to_string(count) + ".mvt", std::ios::binary};
    const std::string bytes{std::istreambuf_iterator<char>{in}, {}};
    std::uint64_t read = 0;
    std::uint64_t written = 0;
    for (std::uint64_t turn = 0; turn < features / count; ++turn) {
        const std::uint64_t start = processor_nanoseconds();
        const std::vector<Layer> layers = read_tile(bytes);
        const std::uint64_t middle = processor_nanoseconds();
        const std::string again = write_tile(layers);
        const std::uint64_t end = processor_nanoseconds();
        if (layers.size() != 1 || layers.front().features.size() != count || again != bytes) {
            throw std::runtime_error("other bytes");
        }
        read += middle - start;
        written += end - middle;
    }
    const auto told = [&](const char* what, std::uint64_t time) {
        std::printf("%llu %s, %zu bytes, %s: %llu ns\n", static_cast<unsigned long long>(count), name, bytes.size(), what,
                    static_cast<unsigned long long>(time / features));
    };
    told("cut and write", made(feature, bytes, count, features));
    told("write", written);
    told("read", read);
}

int main(int count, char** words) try {
    const std::string folder = count > 1 ? words[1] : ".";
    for (const std::uint64_t features : {1'000, 10'000, 100'000}) {
        measure(folder, "points", "points with five tags", tagged_point, features, 100'000);
    }
    for (const std::uint64_t features : {10, 100, 1'000}) {
        measure(folder, "lines", "lines of 4,000 points", long_line, features, 1'000);
    }
    return 0;
} catch (const std::exception& fault) {
    std::fprintf(stderr, "%s\n", fault.what());
    return 1;
}
