#!/bin/bash
# Measures how long an index of boxes takes for an insert, a removal and a query, a look at each entry, and to be built at once: makes a
# scratch repository with copies of the product's crates, outside of this one, and runs main.rt.txt there.
set -euo pipefail
here="$(cd "$(dirname "$0")" && pwd)"
work="$(mktemp -d)"
trap 'rm -rf "$work"' EXIT
python3 "$here/../../tools/scratch.py" "$work" index_bench box_index feature_model anyhow
cp "$here/main.rt.txt" "$work/crates/index_bench/src/main.rt"
cd "$work/crates/index_bench"
rt run
