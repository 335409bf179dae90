#!/usr/bin/env bash
# Builds an executable whose --version names the commit that it is made of: vtserve-COMMIT in the folder where this is called.
#
#     bash bench/tools/release.sh [COMMIT]    HEAD if none is given; a branch or a tag is one too
#
# A source can't hold the name of its own commit, and the kit's build passes nothing in. So this works in a scratch clone: it writes the
# commit behind the version there, and runs the gate of that: what it leaves is what passed. Where the gate has passed for COMMIT on this
# machine, the program alone is proved again (some 10 minutes), and otherwise everything.
set -euo pipefail

repository=$(cd "$(dirname "$0")/../.." && pwd)
commit=$(git -C "$repository" rev-parse --short=10 --verify "${1:-HEAD}^{commit}")
scratch=$(mktemp -d)
trap 'rm -rf "$scratch"' EXIT

git clone -q "$repository" "$scratch/vtserve"
git -C "$scratch/vtserve" checkout -q "$commit"
lines="$scratch/vtserve/crates/vtserve/src/commands.rt"
if [ "$(grep -c '\.version("[0-9.]*")' "$lines")" != 1 ]; then
    echo "release.sh: commands.rt of $commit has no line with a version" >&2
    exit 1
fi
sed -i "s/\.version(\"\([0-9.]*\)\")/.version(\"\1 ($commit)\")/" "$lines"
(cd "$scratch/vtserve" && rt ci > "$scratch/told" 2>&1) || { tail -20 "$scratch/told" >&2; exit 1; }
install "$scratch/vtserve/crates/vtserve/out/vtserve" "vtserve-$commit"
"./vtserve-$commit" --version
