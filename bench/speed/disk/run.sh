#!/bin/bash
# Measures how long a disk in memory takes for a write and for a read: makes a scratch repository with copies of the product's crates, outside of
# this one, and runs main.rt.txt there.
set -euo pipefail
here="$(cd "$(dirname "$0")" && pwd)"
work="$(mktemp -d)"
trap 'rm -rf "$work"' EXIT
python3 "$here/../../tools/scratch.py" "$work" disk_bench sector_disk anyhow
cp "$here/main.rt.txt" "$work/crates/disk_bench/src/main.rt"
cd "$work/crates/disk_bench"
rt run
