#!/bin/bash
# Measures how fast archives are built, judged and looked into, beside a program over protozero (Debian's libprotozero-dev, g++):
# makes a scratch repository with copies of the product's crates, outside of this one, builds main.rt.txt there, and runs both by
# turns.
set -euo pipefail
here="$(cd "$(dirname "$0")" && pwd)"
work="$(mktemp -d)"
trap 'rm -rf "$work"' EXIT
mkdir -p "$work/archives"
python3 "$here/../../tools/scratch.py" "$work" archive_bench pm_archive pm_metadata pm_verify pm_build anyhow
cp "$here/main.rt.txt" "$work/crates/archive_bench/src/main.rt"
g++ -O2 -std=c++17 -o "$work/peer" "$here/peer.cpp"
cd "$work/crates/archive_bench"
rt run -- "$work/archives" > /dev/null
python3 "$here/../beside.py" "$work/archives" out/archive_bench "$work/peer"
