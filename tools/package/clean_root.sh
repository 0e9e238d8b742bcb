#!/usr/bin/env bash
# Installs the package in a Debian 12 made for it, uses it as somebody who has just installed it would, and removes it: nothing may be left.
# Run by hand, and no part of the gate: it wants root, debootstrap and the network.
#
#     tools/package/clean_root.sh target/package/gigorchid_X.Y.Z_amd64.deb
set -euo pipefail

examples=/usr/share/doc/gigorchid/examples
# What a new user runs, one after another in one folder; each must succeed.
commands=(
    'gigorchid --help'
    'gigorchid --version'
    'gigorchid new demo'
    'gigorchid lint demo'
    'gigorchid simulate demo peak -o demo/record.csv'
    'gigorchid check demo demo/record.csv'
    'gigorchid convert demo demo/record.csv -o demo/converted.csv'
    'gigorchid compare demo:peak demo/converted.csv'
    'gigorchid normal demo peak -o demo/normal.blocks'
    'gigorchid plot demo peak -o demo/peak.svg'
    'gigorchid plot demo peak revised -o demo/both.png'
    'gigorchid report demo peak -o demo/peak.html'
    'gigorchid search demo demo/record.csv --at 07:20 --ramp 1350'
    'gigorchid explain 12'
    'gigorchid pack demo --into blocks'
    'gigorchid unpack blocks/corridor.blocks blocks/demands.blocks --into again --like demo'
    'python3 -c "import gigorchid; print(gigorchid.Project.load(\"demo\").simulate(\"peak\").frame().head())"'
    'python3 -c "from gigorchid import library; print(library.path())"'
    'python3 -c "from gigorchid import Project, plots; plots.queue(Project.load(\"demo\").simulate(\"peak\")).figure.savefig(\"queue.png\")"'
    "gcc $examples/host.c \$(pkg-config --cflags --libs gigorchid) -o host"
    "./host 2 1 $examples/b/corridor.blocks $examples/b/demands.blocks $examples/b/case1.blocks > plan.txt"
    "diff plan.txt $examples/expected/case1.txt"
    "gcc $examples/calls.c \$(pkg-config --cflags --libs gigorchid) -o calls && ./calls"
)

# fail WHY: says it, and ends
fail() {
    echo "clean_root.sh: $1" >&2
    exit 1
}

[ -f "${1:-}" ] || fail "the package is wanted: clean_root.sh DEB"
[ "$(id -u)" = 0 ] || fail "only root can make a new root"
command -v debootstrap > /dev/null || fail "debootstrap is missing"
deb=$(realpath "$1")
# shellcheck disable=SC2016 # the format is apt-get's, not the shell's
mirror=$(apt-get indextargets --format '$(REPO_URI)' 'Created-By: Packages' 'Origin: Debian' 'Codename: bookworm' | sort -u | head -n 1)
[ -n "$mirror" ] || fail "apt's sources on this machine have no mirror of Debian 12; run apt-get update first"

work=$(mktemp -d)
root=$work/root
# leave: unmounts what was mounted, and removes the new root
leave() {
    mountpoint -q "$root/proc" && umount "$root/proc"
    rm -rf --one-file-system "$work"
}
trap leave EXIT

# inside COMMAND..: in the new root, with nothing of this machine's environment but its proxies
inside() {
    chroot "$root" env -i PATH=/usr/sbin:/usr/bin:/sbin:/bin HOME=/root DEBIAN_FRONTEND=noninteractive \
        ${http_proxy:+http_proxy="$http_proxy"} ${https_proxy:+https_proxy="$https_proxy"} "$@"
}

# packages COMMAND NAME..: has the new root's apt-get install or remove them
packages() {
    local command=$1
    shift
    inside apt-get "$command" --quiet=2 --yes --no-install-recommends --option Dpkg::Use-Pty=0 "$@"
}

# installed: the paths in the new root that have the package's name
installed() {
    find "$root" -xdev -path "$root/home" -prune -o -name '*gigorchid*' -printf '/%P\n'
}

# in_cache: whether the new root's loader knows the library
in_cache() {
    local cache
    cache=$(inside ldconfig --print-cache)
    grep -q libgigorchid.so.0 <<< "$cache"
}

echo "== a new Debian 12 from $mirror"
chmod 755 "$work"
debootstrap --variant=minbase bookworm "$root" "$mirror" > "$work/log" 2>&1 || { tail "$work/log"; fail "debootstrap failed"; }
mount -t proc proc "$root/proc"
[ -z "$(installed)" ] || fail "the new root has the package already"

echo "== apt-get install ./$(basename "$deb")"
cp "$deb" "$root/tmp/"
inside apt-get update --quiet=2
packages install "/tmp/$(basename "$deb")"
rm "$root/tmp/$(basename "$deb")"
packages install gcc libc6-dev pkg-config
in_cache || fail "the loader's cache has no libgigorchid.so.0"
[ -d "$root/usr/lib/python3/dist-packages/gigorchid/__pycache__" ] || fail "the Python modules were not compiled"

inside useradd --create-home --shell /bin/bash visitor
for command in "${commands[@]}"; do
    echo "== $command"
    inside runuser --login visitor --command "$command" || fail "failed with status $?: $command"
done

echo "== apt-get remove gigorchid"
[ -n "$(installed)" ] || fail "the paths of the package are looked for in the wrong place"
packages remove gigorchid
left=$(installed)
[ -z "$left" ] || fail "removing leaves: $left"
! in_cache || fail "removing leaves the library in the loader's cache"

if command -v lintian > /dev/null; then
    echo "== lintian"
    lintian --allow-root --fail-on error "$deb"
else
    echo "== lintian is not on this machine, and was not run"
fi
echo "== the package was installed, used and removed"
