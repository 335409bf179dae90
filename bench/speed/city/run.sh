#!/bin/bash
# Measures how long all tiles of a city take, and the judging of their archive, beside a program over protozero (Debian's
# libprotozero-dev, g++): makes a scratch repository with copies of the product's crates, outside of this one, builds main.rt.txt
# there, and runs both by turns.
set -euo pipefail
here="$(cd "$(dirname "$0")" && pwd)"
work="$(mktemp -d)"
trap 'rm -rf "$work"' EXIT
mkdir -p "$work/archive"
python3 "$here/../../tools/scratch.py" "$work" city_bench feature_store feature_model edit_text pm_archive pm_metadata pm_verify pm_build anyhow
cp "$here/main.rt.txt" "$work/crates/city_bench/src/main.rt"
cp "$here/../city_features.rt.txt" "$work/crates/city_bench/src/city_features.rt"
mkdir -p "$work/crates/city_bench/proofs/add_left"
cp "$here/add_left.antt.txt" "$work/crates/city_bench/proofs/add_left/Invariants.antt"
g++ -O2 -std=c++17 -o "$work/peer" "$here/peer.cpp"
cd "$work/crates/city_bench"
rt run -- "$work/archive" > /dev/null
python3 "$here/../beside.py" "$work/archive" out/city_bench "$work/peer"
