#!/bin/bash
# Measures what an edit and an opening cost, beside a program over protozero and Boost (Debian's libprotozero-dev, libboost-dev, g++) that
# opens the same disks: makes a scratch repository with copies of the product's crates, outside of this one, builds main.rt.txt there, and
# runs both by turns over files in the folder given, or in a scratch folder.
set -euo pipefail
here="$(cd "$(dirname "$0")" && pwd)"
work="$(mktemp -d)"
trap 'rm -rf "$work"' EXIT
mkdir -p "$work/disks"
folder="$(cd "${1:-$work/disks}" && pwd)"
python3 "$here/../../tools/scratch.py" "$work" service_bench sector_disk file_disk feature_model tile_service anyhow
cp "$here/main.rt.txt" "$work/crates/service_bench/src/main.rt"
g++ -O2 -std=c++17 -o "$work/peer" "$here/peer.cpp" 2> /dev/null
cd "$work/crates/service_bench"
rt run -- "$folder" > /dev/null
python3 "$here/../beside.py" "$folder" out/service_bench "$work/peer"
