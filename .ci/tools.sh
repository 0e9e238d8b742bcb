#!/usr/bin/env bash
# Installs what the steps run beside rt, gcc and cargo, where it is missing: the Debian packages below. Fails where that cannot be done.
set -euo pipefail

# A package, and the command or, for /usr/bin/python3, the module that shows that it is there.
packages='
g++ command g++
valgrind command valgrind
pkg-config command pkg-config
groff-base command groff
python3-numpy module numpy
python3-pandas module pandas
python3-click module click
python3-rich module rich
python3-matplotlib module matplotlib
python3-jinja2 module jinja2
python3-selenium module selenium
chromium command chromium
chromium-driver command chromedriver
python3-pytest module pytest
python3-hypothesis module hypothesis
black module black
mypy module mypy
pyflakes3 module pyflakes
'

# is_there KIND NAME: whether the command or the module is there
is_there() {
    case $1 in
    command) command -v "$2" > /dev/null ;;
    module) /usr/bin/python3 -c "import sys, importlib.util; sys.exit(importlib.util.find_spec('$2') is None)" 2> /dev/null ;;
    esac
}

# absent: the packages that are not there
absent() {
    local package kind name
    while read -r package kind name; do
        [ -z "$package" ] || is_there "$kind" "$name" || echo "$package"
    done <<< "$packages"
}

mapfile -t missing < <(absent)
[ "${#missing[@]}" -gt 0 ] || exit 0

# fail WHY: says what is missing, and ends
fail() {
    echo "missing: ${missing[*]}; the gate needs them, and $1" >&2
    exit 1
}

command -v apt-get > /dev/null || fail "there is no apt-get to install them with"
as_root=()
if [ "$(id -u)" != 0 ]; then
    command -v sudo > /dev/null || fail "only root can install them: apt-get install ${missing[*]}"
    as_root=(sudo --non-interactive)
fi
install=(env DEBIAN_FRONTEND=noninteractive apt-get)
"${as_root[@]}" "${install[@]}" update || fail "apt-get update failed"
"${as_root[@]}" "${install[@]}" install --yes --no-install-recommends "${missing[@]}" || fail "apt-get install failed"
for package in $(absent); do
    fail "apt-get did not bring $package"
done
