#!/bin/bash
# Measures how fast tiles are cut, written and read, beside a program over protozero and Boost (Debian's libprotozero-dev, libboost-dev,
# g++): makes a scratch repository with copies of the product's crates, outside of this one, builds main.rt.txt there, and runs both by
# turns.
set -euo pipefail
here="$(cd "$(dirname "$0")" && pwd)"
work="$(mktemp -d)"
trap 'rm -rf "$work"' EXIT
python3 "$here/../../tools/scratch.py" "$work" codec_bench feature_store feature_model edit_text geometry_commands tile_cutter \
    mvt_layer mvt_write hilbert_id anyhow
cp "$here/main.rt.txt" "$work/crates/codec_bench/src/main.rt"
mkdir -p "$work/crates/codec_bench/proofs/put" "$work/tiles"
cp "$here/put.antt.txt" "$work/crates/codec_bench/proofs/put/Answers.antt"
g++ -O2 -std=c++17 -o "$work/peer" "$here/peer.cpp" 2> /dev/null
cd "$work/crates/codec_bench"
rt run -- "$work/tiles" > /dev/null
python3 "$here/../beside.py" "$work/tiles" out/codec_bench "$work/peer"
