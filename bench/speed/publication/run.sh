#!/bin/bash
# Measures what a publication over a file costs, beside a program over protozero (Debian's libprotozero-dev, g++) that makes the same
# tiles and writes its archive by one write and a sync: makes a scratch repository with copies of the product's crates, outside of
# this one, builds main.rt.txt there, and runs both by turns over files in the folder given, or in a scratch folder.
set -euo pipefail
here="$(cd "$(dirname "$0")" && pwd)"
work="$(mktemp -d)"
trap 'rm -rf "$work"' EXIT
mkdir -p "$work/disks"
folder="$(cd "${1:-$work/disks}" && pwd)"
python3 "$here/../../tools/scratch.py" "$work" publication_bench sector_disk feature_model edit_text feature_store tile_service anyhow
cp "$here/main.rt.txt" "$work/crates/publication_bench/src/main.rt"
cp "$here/../city_features.rt.txt" "$work/crates/publication_bench/src/city_features.rt"
mkdir -p "$work/crates/publication_bench/proofs/count_left"
cp "$here/count_left.antt.txt" "$work/crates/publication_bench/proofs/count_left/Invariants.antt"
g++ -O2 -std=c++17 -o "$work/peer" "$here/peer.cpp"
cd "$work/crates/publication_bench"
rt run -- "$folder" > /dev/null
python3 "$here/../beside.py" "$folder" out/publication_bench "$work/peer"
for subject in city points; do
    python3 "$here/../beside.py" --word "$subject" "$folder" out/publication_bench "$work/peer"
done
