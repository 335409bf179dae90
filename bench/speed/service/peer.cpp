// The other program of this benchmark: opens the disks that main.rt.txt leaves in a folder. It reads the journal's records as docs/FORMATS.md
// says, decodes their features, and makes a map of them that is edited (peers/map.hpp): features by number, and their boxes in an R-tree that
// is built at once. Lengths, kinds and numbers of records are checked; UTF-8, order of keys and limits of features aren't, as the product does.
#include "../peers/clock.hpp"
#include "../peers/map.hpp"

#include <cstdio>
#include <cstring>
#include <fstream>

constexpr std::size_t sector_bytes = 512;
constexpr std::size_t part_bytes = 496;
constexpr std::uint64_t journal = 3;
// So many sectors are read at once.
constexpr std::size_t read_sectors = 128;

[[noreturn]] void refuse(const char* why) {
    throw std::runtime_error(why);
}

// The bytes of an edit's text, from the first on.
class EditText {
public:
    explicit EditText(std::string_view bytes) : bytes_(bytes) {}

    template <typename T>
    T number() {
        T value{};
        std::memcpy(&value, take(sizeof value).data(), sizeof value);
        return value;
    }

    std::string_view take(std::size_t count) {
        if (count > bytes_.size()) {
            refuse("a text that is cut");
        }
        const std::string_view taken = bytes_.substr(0, count);
        bytes_.remove_prefix(count);
        return taken;
    }

    std::string name() { return std::string{take(number<std::uint8_t>())}; }
    bool is_empty() const { return bytes_.empty(); }

private:
    std::string_view bytes_;
};

Line line_in(EditText& text) {
    Line line(text.number<std::uint16_t>());
    for (World& point : line) {
        point.x = text.number<std::uint32_t>();
        point.y = text.number<std::uint32_t>();
    }
    return line;
}

std::vector<Line> lines_in(EditText& text) {
    std::vector<Line> lines(text.number<std::uint16_t>());
    for (Line& line : lines) {
        line = line_in(text);
    }
    return lines;
}

Tag tag_in(EditText& text) {
    std::string key = text.name();
    switch (text.number<std::uint8_t>()) {
        case 1: return {std::move(key), std::string{text.take(text.number<std::uint16_t>())}};
        case 2: return {std::move(key), text.number<std::uint64_t>()};
        case 3: return {std::move(key), text.number<std::int64_t>()};
        case 4: return {std::move(key), false};
        case 5: return {std::move(key), true};
        default: refuse("a value");
    }
}

MapFeature feature_in(EditText& text) {
    MapFeature feature;
    feature.number = text.number<std::uint64_t>();
    feature.layer = text.name();
    feature.minzoom = text.number<std::uint8_t>();
    feature.maxzoom = text.number<std::uint8_t>();
    switch (text.number<std::uint8_t>()) {
        case 1: feature.geometry = line_in(text); break;
        case 2: feature.geometry = lines_in(text); break;
        case 3: {
            std::vector<Polygon> polygons(text.number<std::uint16_t>());
            for (Polygon& polygon : polygons) {
                polygon = lines_in(text);
            }
            feature.geometry = std::move(polygons);
            break;
        }
        default: refuse("a geometry");
    }
    const std::size_t tags = text.number<std::uint8_t>();
    for (std::size_t at = 0; at < tags; ++at) {
        feature.tags.push_back(tag_in(text));
    }
    return feature;
}

// The features that an edit puts. The disks here have no deletes.
void add_edit(std::string_view bytes, std::vector<MapFeature>& features) {
    EditText text{bytes};
    const std::size_t changes = text.number<std::uint8_t>();
    for (std::size_t at = 0; at < changes; ++at) {
        if (text.number<std::uint8_t>() != 1) {
            refuse("a change that puts nothing");
        }
        features.push_back(feature_in(text));
    }
    if (!text.is_empty()) {
        refuse("something behind the edit");
    }
}

// The sectors of a file, in order.
class Sectors {
public:
    explicit Sectors(const std::string& path) : file_(path, std::ios::binary), room_(read_sectors * sector_bytes) {}

    std::string_view at(std::uint64_t sector) {
        if (sector < first_ || sector >= first_ + count_) {
            file_.seekg(static_cast<std::streamoff>(sector * sector_bytes));
            file_.read(room_.data(), static_cast<std::streamsize>(room_.size()));
            first_ = sector;
            count_ = static_cast<std::uint64_t>(file_.gcount()) / sector_bytes;
            file_.clear();
            if (count_ == 0) {
                refuse("a sector too few");
            }
        }
        return {room_.data() + (sector - first_) * sector_bytes, sector_bytes};
    }

private:
    std::ifstream file_;
    std::vector<char> room_;
    std::uint64_t first_ = 0;
    std::uint64_t count_ = 0;
};

template <typename T>
T number_at(std::string_view bytes, std::size_t at) {
    T number{};
    std::memcpy(&number, bytes.data() + at, sizeof number);
    return number;
}

EditedMap opened(const std::string& path) {
    Sectors sectors{path};
    if (sectors.at(0).substr(0, 8) != "VTILEDSK" || sectors.at(1).substr(0, 8) != "VTROOT01" || sectors.at(2).front() != 0) {
        refuse("no disk without a publication");
    }
    const std::uint64_t slots = number_at<std::uint64_t>(sectors.at(0), 12) / 4;
    std::vector<MapFeature> features;
    std::string text;
    std::uint64_t edit = 0;
    for (std::uint64_t slot = 0; slot < slots;) {
        std::string_view part = sectors.at(journal + slot);
        if (part[0] != 1 || part[1] < 1 || part[1] > 2 || number_at<std::uint64_t>(part, 4) != edit + 1) {
            break;
        }
        ++edit;
        const auto parts = number_at<std::uint16_t>(part, 2);
        const std::size_t length = number_at<std::uint32_t>(part, 12);
        if (parts == 0 || parts != (length + part_bytes - 1) / part_bytes || parts > slots - slot) {
            refuse("a head");
        }
        text.clear();
        for (std::uint16_t at = 0; at < parts; ++at) {
            part = sectors.at(journal + slot + at);
            if (at > 0 && (part[0] != 2 || number_at<std::uint16_t>(part, 2) != at || number_at<std::uint64_t>(part, 4) != edit)) {
                refuse("a body");
            }
            text += part.substr(16, std::min(part_bytes, length - text.size()));
        }
        add_edit(text, features);
        slot += parts;
    }
    EditedMap map;
    map.put_all(std::move(features));
    return map;
}

void measure(const std::string& folder, const char* file, const char* name, std::uint64_t edits, int openings) {
    std::uint64_t least = ~std::uint64_t{0};
    for (int turn = 0; turn < openings; ++turn) {
        const std::uint64_t start = processor_nanoseconds();
        const EditedMap map = opened(folder + "/" + file + std::to_string(edits));
        least = std::min(least, processor_nanoseconds() - start);
        if (map.size() != edits) {
            refuse("another number of features");
        }
    }
    std::printf("an opening from a file of %llu edits, %s, each: %llu ns\n", static_cast<unsigned long long>(edits), name,
                static_cast<unsigned long long>(least / edits));
}

int main(int count, char** words) try {
    const std::string folder = count > 1 ? words[1] : ".";
    for (const std::uint64_t edits : {10'000, 100'000}) {
        measure(folder, "ascending", "ascending numbers", edits, edits == 10'000 ? 20 : 5);
        measure(folder, "mixed", "numbers in no order", edits, edits == 10'000 ? 20 : 5);
    }
    return 0;
} catch (const std::exception& fault) {
    std::fprintf(stderr, "%s\n", fault.what());
    return 1;
}
