#!/usr/bin/env bash
# Makes the Debian package gigorchid_X.Y.Z_amd64.deb in target/package, or in the folder that is told: the command and its manual page, the
# Python package, the library with its header, documents and examples. The same tree gives the same bytes.
set -euo pipefail
out=$(realpath --canonicalize-missing "${1:-$(dirname "$0")/../../target/package}")
cd "$(dirname "$0")/../.."
umask 022
sources=tools/package
# The time of every file is that of the changelog's newest entry, as Debian has it.
released=$(sed -n 's/^ -- .*>  //p' $sources/debian/changelog | head -n 1)
SOURCE_DATE_EPOCH=$(date --date="$released" +%s)
export SOURCE_DATE_EPOCH PYTHONDONTWRITEBYTECODE=1
work=$(mktemp -d)
trap 'rm -rf "$work"' EXIT
stage=$work/stage
libraries=$stage/usr/lib/x86_64-linux-gnu
modules=$stage/usr/lib/python3/dist-packages
documents=$stage/usr/share/doc/gigorchid
manuals=$stage/usr/share/man/man1

bash $sources/library.sh
version=$(basename target/lib/libgigorchid.so.*.*)
version=${version#libgigorchid.so.}
head -n 1 $sources/debian/changelog | grep -qF "gigorchid ($version) " || { echo "the changelog does not begin with $version"; exit 1; }

mkdir -p "$libraries/pkgconfig" "$modules" "$documents/examples" "$manuals" "$stage/usr/bin" "$stage/usr/include" "$stage/DEBIAN"
cp target/lib/libgigorchid.a target/lib/libgigorchid.so."$version" "$libraries"
ln -s libgigorchid.so."$version" "$libraries/libgigorchid.so.0"
ln -s libgigorchid.so.0 "$libraries/libgigorchid.so"
sed "s/@VERSION@/$version/" $sources/gigorchid.pc > "$libraries/pkgconfig/gigorchid.pc"
cp include/gigorchid.h "$stage/usr/include"
cp $sources/gigorchid "$stage/usr/bin"
cp -r python/gigorchid "$modules"
find "$modules" -name __pycache__ -prune -exec rm -r {} +
cp -r examples/b examples/expected examples/host.c examples/calls.c "$documents/examples"
cp docs/MODEL.md $sources/debian/copyright "$documents"
cp -r docs/FORMATS.md docs/USE.md docs/pictures "$documents"
gzip -9n < $sources/debian/changelog > "$documents/changelog.gz"
# From the staged modules, so that a module or a data file that is missing there is missed here.
PYTHONPATH=$modules /usr/bin/python3 -m gigorchid.manual "$version" "$(date --utc --date="@$SOURCE_DATE_EPOCH" +%F)" > "$work/manual"
gzip -9n < "$work/manual" > "$manuals/gigorchid.1.gz"

# Counted as dpkg-gencontrol does: each file in whole KiB, and one for each folder and link.
size=$(find "$stage/usr" -printf '%y %s\n' | awk '{ size += $1 == "f" ? int(($2 + 1023) / 1024) : 1 } END { print size }')
sed -e "s/@VERSION@/$version/" -e "s/@SIZE@/$size/" $sources/debian/control > "$stage/DEBIAN/control"
cp $sources/debian/postinst $sources/debian/prerm $sources/debian/triggers "$stage/DEBIAN"
echo "libgigorchid 0 gigorchid (>= $version)" > "$stage/DEBIAN/shlibs"
(cd "$stage" && find usr -type f -print0 | LC_ALL=C sort -z | xargs -0 md5sum > DEBIAN/md5sums)

find "$stage" -type d -exec chmod 755 {} +
find "$stage" -type f -exec chmod 644 {} +
chmod 755 "$stage/usr/bin/gigorchid" "$stage/DEBIAN/postinst" "$stage/DEBIAN/prerm"
find "$stage" -exec touch --no-dereference --date="@$SOURCE_DATE_EPOCH" {} +
mkdir -p "$out"
dpkg-deb --root-owner-group --threads-max=1 --build "$stage" "$work/package" > "$work/log"
mv "$work/package" "$out/gigorchid_${version}_amd64.deb"
echo "$out/gigorchid_${version}_amd64.deb"
