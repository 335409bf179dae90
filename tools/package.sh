#!/usr/bin/env bash
# Makes the Debian package of what the gate built, vtserve_VERSION_amd64.deb, in the folder where this is called.
#
#     bash tools/package.sh [PROGRAM]    PROGRAM is crates/vtserve/out/vtserve, which `rt ci` leaves there
#
# It needs dpkg-deb and Python 3.11. The package has the program byte for byte, vtmap, the page, the units and timers with their paths,
# nginx.conf as an example, man pages that are written from the commands' own help, and the documents. Who maintains it is DEBFULLNAME and
# DEBEMAIL, or else the author of the commit. docs/DEPLOYING.md says how it is installed; tests/package.py tries it.
set -euo pipefail

top=$(cd "$(dirname "$0")/.." && pwd)
program=$(realpath "${1:-$top/crates/vtserve/out/vtserve}")
version=$("$program" --version | cut -d ' ' -f 2)
commit=$(git -C "$top" rev-parse --short=10 HEAD)
export SOURCE_DATE_EPOCH=${SOURCE_DATE_EPOCH:-$(git -C "$top" log -1 --format=%ct)}
maintainer="${DEBFULLNAME:-$(git -C "$top" log -1 --format=%an)} <${DEBEMAIL:-$(git -C "$top" log -1 --format=%ae)}>"

for other in "$("$top/bin/vtmap" --version | cut -d ' ' -f 2)" "$(sed -n 's/^## \([0-9.]*\).*/\1/p' "$top/CHANGELOG.md" | head -n 1)"; do
    if [ "$other" != "$version" ]; then
        echo "package.sh: $program is $version, and vtmap or CHANGELOG.md $other" >&2
        exit 1
    fi
done

scratch=$(mktemp -d)
trap 'rm -rf "$scratch"' EXIT
root=$scratch/root
share=$root/usr/share/vtserve
docs=$root/usr/share/doc/vtserve
units=$root/usr/lib/systemd/system
umask 022

# The program and the toolbox.
install -D -m 755 -t "$root/usr/bin" "$program" "$top/bin/vtmap"
mkdir -p "$root/usr/lib/vtserve"
cp -r "$top/vtmap" "$root/usr/lib/vtserve/"
find "$root/usr/lib/vtserve" -name __pycache__ -exec rm -r {} +
find "$root/usr/lib/vtserve" -type f -exec chmod 644 {} +

# The page: its style is a configuration file of its own, so that a new version keeps it. Beside it vtmap as one file, for the offices.
mkdir -p "$share" "$root/etc/vtserve"
cp -r "$top/web" "$share/"
mv "$share/web/style.json" "$root/etc/vtserve/style.json"
ln -s /etc/vtserve/style.json "$share/web/style.json"
python3 "$top/tools/pyz.py" "$share/web/vtmap.pyz"
ln -s ../../share/vtserve/web "$root/usr/lib/vtserve/web"

# What runs it: nothing of it is enabled.
mkdir -p "$units" "$root/etc/logrotate.d"
for unit in "$top"/docs/vtserve*.service "$top"/docs/vtserve*.timer; do
    sed 's#/usr/local/bin/#/usr/bin/#g' "$unit" > "$units/$(basename "$unit")"
done
install -m 644 "$top/docs/vtserve.logrotate" "$root/etc/logrotate.d/vtserve"
install -m 644 "$top/docs/nginx.conf" "$share/nginx.conf"

# Documents, examples, man pages.
mkdir -p "$docs/examples" "$root/usr/share/man/man1"
cp -r "$top/README.md" "$top/CHANGELOG.md" "$docs/"
mkdir "$docs/docs"
cp -r "$top"/docs/*.md "$top/docs/pictures" "$docs/docs/"
install -m 644 "$top/examples/survey.geojson" "$docs/examples/"
install -m 755 "$top/examples/town.py" "$share/town.py"
ln -s ../../../vtserve/town.py "$docs/examples/town.py"
ln -s ../../../vtserve/nginx.conf "$docs/examples/nginx.conf"
ln -s ../../../vtserve/nginx.conf "$docs/docs/nginx.conf"
python3 "$top/tools/package/manual.py" "$program" "$root/usr/share/man/man1"
cat > "$docs/copyright" <<TEXT
vtserve $version, made from commit $commit of its repository.
The repository names no licence: ask its maintainers before you pass it on.
TEXT
printf 'vtserve (%s) stable; urgency=low\n\n  * CHANGELOG.md has what changed.\n\n -- %s  %s\n' "$version" "$maintainer" \
    "$(date -u -R -d "@$SOURCE_DATE_EPOCH")" > "$docs/changelog"
gzip -9n "$docs/changelog" "$root"/usr/share/man/man1/*

# The package itself.
mkdir "$root/DEBIAN"
printf '%s\n' /etc/vtserve/style.json /etc/logrotate.d/vtserve > "$root/DEBIAN/conffiles"
install -m 755 -t "$root/DEBIAN" "$top/tools/package/postinst" "$top/tools/package/prerm" "$top/tools/package/postrm"
libc=$(grep -ao 'GLIBC_2\.[0-9]*' "$program" | sort -uV | tail -n 1)
chmod -R u=rwX,go=rX "$root"
size=$(du -k -s --apparent-size --exclude=DEBIAN "$root" | cut -f 1)
cat > "$root/DEBIAN/control" <<TEXT
Package: vtserve
Version: $version
Architecture: amd64
Maintainer: $maintainer
Installed-Size: $size
Depends: libc6 (>= ${libc#GLIBC_}), adduser, python3 (>= 3.11)
Recommends: python3-gdal
Suggests: nginx-light, logrotate, python3-cairo, qgis
Section: science
Priority: optional
Description: vector tile server whose map is edited over HTTP
 A small live map that a team keeps: features go in as JSON, vector tiles of
 the latest edit come out, and the whole map is published as a PMTiles archive.
 Every acknowledged edit survives a crash, without a database.
 .
 vtmap imports files, exchanges maps with QGIS, saves and watches them. A page
 for browsers shows and edits the map.
TEXT
(cd "$root" && find . -path ./DEBIAN -prune -o -type f -printf '%P\n' | sort | xargs -d '\n' md5sum) > "$root/DEBIAN/md5sums"
find "$root" -newermt "@$SOURCE_DATE_EPOCH" -exec touch -h -d "@$SOURCE_DATE_EPOCH" {} +
dpkg-deb --root-owner-group -Zxz --build "$root" "vtserve_${version}_amd64.deb"
