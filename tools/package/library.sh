#!/usr/bin/env bash
# Makes of the proved archive, which tools/build.sh writes, the shared library target/lib/libgigorchid.so.X.Y.Z, under its two other names
# too, and copies the archive beside it. Fails where the library exports anything but the functions of the header.
set -euo pipefail
cd "$(dirname "$0")/../.."
umask 022
header=include/gigorchid.h
archive=target/staticlib/libhost.a
folder=target/lib
soname=libgigorchid.so.0

[ -f $archive ] || bash tools/build.sh host
version=$(sed -n 's/^#define GIGORCHID_VERSION_TEXT "\(.*\)"$/\1/p' $header)
functions=$(sed -n 's/^uint32_t \(gigorchid_[a-z_]*\)(.*/\1/p' $header | LC_ALL=C sort)
if [ -z "$version" ] || [ -z "$functions" ]; then
    echo "$header tells no version or no function"
    exit 1
fi

mkdir -p $folder
work=$(mktemp -d --tmpdir=$folder)
trap 'rm -rf "$work"' EXIT
printf '{ global:\n%s\nlocal: *; };\n' "${functions//$'\n'/;$'\n'};" > "$work/exported"
gcc -shared -s -Wl,-soname,$soname -Wl,--version-script="$work/exported" -Wl,--no-undefined -Wl,-z,relro -Wl,-z,now -Wl,-z,noexecstack \
    -Wl,--whole-archive $archive -Wl,--no-whole-archive -o "$work/library"
if ! diff <(echo "$functions") <(nm --dynamic --defined-only --format=just-symbols "$work/library" | LC_ALL=C sort); then
    echo "the functions of $header (<) and those that the library exports (>) differ"
    exit 1
fi

# Renamed into place: a program that has the library open keeps the file it opened. The other names are of the same file and no symbolic
# links: `rt ci` refuses a checkout that has one.
cp $archive "$work/archive"
ln "$work/library" "$work/major"
ln "$work/library" "$work/plain"
mv -T "$work/library" $folder/libgigorchid.so."$version"
mv -T "$work/archive" $folder/libgigorchid.a
mv -T "$work/major" $folder/$soname
mv -T "$work/plain" $folder/libgigorchid.so
find $folder -name 'libgigorchid.so.*' ! -name libgigorchid.so."$version" ! -name $soname -delete
echo "$folder/libgigorchid.so.$version exports the $(wc -l <<< "$functions") functions of $header"
