#!/bin/bash
# Measures the memory of a map's features and the number of its pieces, the time of tiles by the size of the map and by the order of its
# numbers, and of new numbers by where they come, beside a program over protozero and Boost (Debian's libprotozero-dev, libboost-dev, g++):
# makes a scratch repository with copies of the product's crates, outside of this one, builds main.rt.txt there, and runs both by turns.
set -euo pipefail
here="$(cd "$(dirname "$0")" && pwd)"
work="$(mktemp -d)"
trap 'rm -rf "$work"' EXIT
python3 "$here/../../tools/scratch.py" "$work" map_bench feature_store feature_model edit_text mvt_layer hilbert_id anyhow
crate="$work/crates/map_bench"
cp "$here/main.rt.txt" "$crate/src/main.rt"
cp "$here/grown_map.rt.txt" "$crate/src/grown_map.rt"
cp "$here/../city_features.rt.txt" "$crate/src/city_features.rt"
for function in new put; do
    mkdir -p "$crate/proofs/grown_map/GrownMap/$function"
    cp "$here/$function.antt.txt" "$crate/proofs/grown_map/GrownMap/$function/Answers.antt"
done
g++ -O2 -std=c++17 -o "$work/peer" "$here/peer.cpp" 2> /dev/null
gcc -O2 -shared -fPIC -o "$work/pieces.so" "$here/pieces.c"
cd "$crate"
rt run -- "$work" memory 1000 > /dev/null
python3 "$here/../beside.py" "$work" out/map_bench "$work/peer"
few="$(LD_PRELOAD="$work/pieces.so" out/map_bench "$work" memory 100000 2>&1 > /dev/null)"
many="$(LD_PRELOAD="$work/pieces.so" out/map_bench "$work" memory 200000 2>&1 > /dev/null)"
echo "pieces of memory of a feature, index included: $(((many - few) / 1000)) hundredths"
