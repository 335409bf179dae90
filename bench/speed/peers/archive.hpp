// Archives, their judge and their look-up, for the other programs of archives/ and city/: C++ over protozero.
//
// An archive lies in memory; headers, directories and contents are read where they lie, and a look-up copies the content. It
// judges what pm_archive judges (PMTiles 3: header, directories at any depth up to three leaves, counts, each content once as a
// tile), but of the metadata only the braces at both ends, and a tile as tile.hpp says.
#pragma once

#include "tile.hpp"

#include <algorithm>
#include <cstring>
#include <fstream>
#include <iterator>
#include <string>
#include <unordered_map>

constexpr std::size_t header_bytes = 127;
constexpr std::uint64_t root_end = 16'384;
constexpr int most_leaves = 3;
// One more than the greatest id, that of the last tile of zoom 31.
constexpr std::uint64_t tile_ids = (std::uint64_t{1} << 62U) / 3 * 4 + 1;

struct Part {
    std::uint64_t offset;
    std::uint64_t length;
};

struct Header {
    Part root;
    Part metadata;
    Part leaves;
    Part tiles;
    std::uint64_t addressed;
    std::uint64_t entries;
    std::uint64_t contents;
    bool has_plain_tiles;
};

struct Entry {
    std::uint64_t id;
    std::uint64_t offset;
    std::uint32_t length;
    // 0 of a leaf directory.
    std::uint32_t run;
};

[[noreturn]] inline void refuse(const char* why) {
    throw std::runtime_error(why);
}

inline std::uint64_t number_at(std::string_view bytes, std::size_t at) {
    std::uint64_t number = 0;
    std::memcpy(&number, bytes.data() + at, sizeof number);
    return number;
}

inline std::string_view within(std::string_view bytes, Part part) {
    if (part.offset > bytes.size() || part.length > bytes.size() - part.offset) {
        refuse("a part outside of the file");
    }
    return bytes.substr(part.offset, part.length);
}

inline std::string_view within(std::string_view section, const Entry& entry) {
    return within(section, Part{entry.offset, entry.length});
}

inline Header header_of(std::string_view bytes) {
    if (bytes.size() < header_bytes || bytes.substr(0, 7) != "PMTiles" || bytes[7] != 3) {
        refuse("no archive");
    }
    const auto part = [&](std::size_t at) { return Part{number_at(bytes, at), number_at(bytes, at + 8)}; };
    const Header header{part(8), part(24), part(40), part(56), number_at(bytes, 72), number_at(bytes, 80), number_at(bytes, 88),
                        bytes[98] == 1 && bytes[99] == 1};
    for (const Part& one : {header.root, header.metadata, header.leaves, header.tiles}) {
        within(bytes, one);
    }
    if (header.root.offset + header.root.length > root_end || bytes[97] != 1) {
        refuse("no root directory");
    }
    return header;
}

inline std::vector<Entry> directory_of(std::string_view bytes) {
    const char* at = bytes.data();
    const char* end = at + bytes.size();
    const auto next = [&] { return protozero::decode_varint(&at, end); };
    const auto small = [&] {
        const std::uint64_t number = next();
        if (number >> 32U != 0) {
            refuse("a number of 32 bits");
        }
        return static_cast<std::uint32_t>(number);
    };
    const std::uint64_t count = next();
    // Each entry takes four bytes at least.
    if (count > bytes.size() / 4) {
        refuse("more entries than the bytes tell");
    }
    std::vector<Entry> entries(count);
    std::uint64_t id = 0;
    for (Entry& entry : entries) {
        const std::uint64_t delta = next();
        if (delta >= tile_ids - id) {
            refuse("an id");
        }
        id += delta;
        entry.id = id;
    }
    for (Entry& entry : entries) {
        entry.run = small();
    }
    for (Entry& entry : entries) {
        entry.length = small();
    }
    std::uint64_t behind = 0;
    std::uint64_t free_id = 0;
    for (std::size_t i = 0; i < entries.size(); ++i) {
        Entry& entry = entries[i];
        const std::uint64_t told = next();
        if (entry.length == 0 || (told == 0 && i == 0) || entry.id < free_id || entry.run > tile_ids - entry.id) {
            refuse("an entry");
        }
        entry.offset = told == 0 ? behind : told - 1;
        behind = entry.offset + entry.length;
        free_id = entry.id + std::max<std::uint64_t>(1, entry.run);
    }
    if (at != end) {
        refuse("something behind the directory");
    }
    return entries;
}

struct Archive {
    std::string_view bytes;
    Header header;
    std::vector<Entry> root;

    explicit Archive(std::string_view told) : bytes(told), header(header_of(told)), root(directory_of(within(told, header.root))) {}
};

// Appends the tile entries, whose ids are below the bound.
inline void list(const Archive& archive, const std::vector<Entry>& entries, std::uint64_t from, std::uint64_t bound, int more, std::vector<Entry>& tiles) {
    for (std::size_t i = 0; i < entries.size(); ++i) {
        const Entry& entry = entries[i];
        if (entry.id < from || entry.id >= bound || entry.run > bound - entry.id) {
            refuse("an id outside of its directory");
        }
        if (entry.run > 0) {
            within(within(archive.bytes, archive.header.tiles), entry);
            tiles.push_back(entry);
            continue;
        }
        if (more == 0) {
            refuse("too many leaf directories, one below the other");
        }
        const std::vector<Entry> below = directory_of(within(within(archive.bytes, archive.header.leaves), entry));
        list(archive, below, entry.id, i + 1 < entries.size() ? entries[i + 1].id : bound, more - 1, tiles);
    }
}

inline void check_count(std::uint64_t told, std::uint64_t counted) {
    if (told != 0 && told != counted) {
        refuse("a count");
    }
}

inline void judge(std::string_view bytes) {
    const Archive archive{bytes};
    const std::string_view metadata = within(bytes, archive.header.metadata);
    if (metadata.size() < 2 || metadata.front() != '{' || metadata.back() != '}') {
        refuse("no metadata");
    }
    std::vector<Entry> tiles;
    list(archive, archive.root, 0, tile_ids, most_leaves, tiles);
    // Where contents lie. Two of one offset and another length are two.
    std::unordered_multimap<std::uint64_t, std::uint32_t> contents;
    std::uint64_t addressed = 0;
    const std::string_view section = within(bytes, archive.header.tiles);
    for (const Entry& entry : tiles) {
        addressed += entry.run;
        const auto [first, last] = contents.equal_range(entry.offset);
        if (std::any_of(first, last, [&](const auto& span) { return span.second == entry.length; })) {
            continue;
        }
        contents.emplace(entry.offset, entry.length);
        if (archive.header.has_plain_tiles) {
            read_tile(within(section, entry));
        }
    }
    check_count(archive.header.addressed, addressed);
    check_count(archive.header.entries, tiles.size());
    check_count(archive.header.contents, contents.size());
}

inline std::optional<std::string> tile(const Archive& archive, std::uint64_t id) {
    std::vector<Entry> leaf;
    const std::vector<Entry>* entries = &archive.root;
    for (int more = most_leaves; more >= 0; --more) {
        const auto behind = std::upper_bound(entries->begin(), entries->end(), id, [](std::uint64_t key, const Entry& entry) { return key < entry.id; });
        if (behind == entries->begin()) {
            return {};
        }
        const Entry entry = *std::prev(behind);
        if (entry.run > 0) {
            if (id - entry.id >= entry.run) {
                return {};
            }
            return std::string{within(within(archive.bytes, archive.header.tiles), entry)};
        }
        leaf = directory_of(within(within(archive.bytes, archive.header.leaves), entry));
        entries = &leaf;
    }
    refuse("too many leaf directories, one below the other");
}

inline std::string bytes_of(const std::string& path) {
    std::ifstream in{path, std::ios::binary};
    return {std::istreambuf_iterator<char>{in}, {}};
}
