#!/usr/bin/env bash
# Proves a crate and builds it: a program as target/bin/NAME, a static library as target/staticlib/libNAME.a. What an earlier run proved is
# not proved again, and a file that stays as it was keeps its time, so that nothing is linked anew for it.
#
#     tools/build.sh normal
#     tools/build.sh host
set -euo pipefail
cd "$(dirname "$0")/.."
name=${1:?the name of a program or of a static library is wanted}

if [ -f "crates/$name/src/main.rt" ]; then
    made=crates/$name/out/$name
    kept=target/bin/$name
    # `rt` builds a program only to run it: here on no input, and what it prints is dropped.
    (cd "crates/$name" && rt run < /dev/null > /dev/null)
elif grep -q "^$name staticlib:" crates.txt; then
    made=crates/$name/out/lib$name.a
    kept=target/staticlib/lib$name.a
    (cd "crates/$name" && rt lib)
else
    echo "crates.txt has no program and no static library named $name"
    exit 1
fi

# The new file takes the name only when it is whole, and a program that still runs keeps the old one.
if ! cmp --silent "$made" "$kept"; then
    mkdir -p "$(dirname "$kept")"
    cp "$made" "$kept.new"
    mv "$kept.new" "$kept"
fi
