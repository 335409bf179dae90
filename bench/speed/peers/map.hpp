// A map that is edited and asked for tiles, for the other programs of map/ and service/: C++ over protozero and Boost's R-tree.
//
// Features by number in a std::map, as the product's; their bounding boxes in an R-tree. A tile is made of the features whose box meets
// its own with the margin, by ascending number, as city/map.hpp says.
#pragma once

#include "../city/map.hpp"

#include <boost/geometry.hpp>
#include <boost/geometry/geometries/box.hpp>
#include <boost/geometry/geometries/point.hpp>
#include <boost/geometry/index/rtree.hpp>

namespace index_of = boost::geometry::index;

using IndexPoint = boost::geometry::model::point<std::int64_t, 2, boost::geometry::cs::cartesian>;
using IndexBox = boost::geometry::model::box<IndexPoint>;
using IndexEntry = std::pair<IndexBox, const MapFeature*>;
using Index = index_of::rtree<IndexEntry, index_of::rstar<16>>;

inline IndexBox box_of(const MapFeature& feature) {
    Box<std::uint32_t> box;
    std::visit([&](const auto& geometry) { add(box, geometry); }, feature.geometry);
    return {{box.left, box.top}, {box.right, box.bottom}};
}

class EditedMap {
public:
    // Gives a number its feature, whatever feature it had.
    void put(MapFeature feature) {
        const auto [at, is_new] = features_.try_emplace(feature.number);
        if (!is_new) {
            index_.remove({box_of(at->second), &at->second});
        }
        at->second = std::move(feature);
        index_.insert({box_of(at->second), &at->second});
    }

    // The same of many features, one after the other. The index is built at once of all that the map has then.
    void put_all(std::vector<MapFeature> features) {
        for (MapFeature& feature : features) {
            features_.insert_or_assign(feature.number, std::move(feature));
        }
        std::vector<IndexEntry> entries;
        entries.reserve(features_.size());
        for (const auto& [number, feature] : features_) {
            entries.emplace_back(box_of(feature), &feature);
        }
        index_ = Index{entries};
    }

    // The tile, and how many features it shows.
    std::size_t tile(const TileAt& at, std::string& bytes) {
        const std::uint32_t shift = 32 - at.zoom;
        const std::int64_t side = std::int64_t{1} << shift;
        const std::int64_t reach = side / 64;
        const IndexBox near{{at.column * side - reach, at.row * side - reach}, {(at.column + 1) * side + reach, (at.row + 1) * side + reach}};
        near_.clear();
        for (auto entry = index_.qbegin(index_of::intersects(near)); entry != index_.qend(); ++entry) {
            near_.push_back(entry->second);
        }
        std::sort(near_.begin(), near_.end(), [](const MapFeature* one, const MapFeature* other) { return one->number < other->number; });
        std::size_t count = 0;
        for (const MapFeature* feature : near_) {
            count += add_shown(layers_, *feature, at, shown_);
        }
        take_tile(layers_, bytes);
        return count;
    }

    std::size_t size() const { return features_.size(); }
    const MapFeature* find(std::uint64_t number) const {
        const auto at = features_.find(number);
        return at == features_.end() ? nullptr : &at->second;
    }

private:
    std::map<std::uint64_t, MapFeature> features_;
    Index index_;
    std::vector<const MapFeature*> near_;
    Layers layers_;
    Shown shown_;
};
