#!/usr/bin/env bash
# The layout of every Rust package, wherever its Cargo.toml stands, and of the Python sources, which also name nothing that they do not use.
set -euo pipefail
cd "$(dirname "$0")/.."
. .ci/variables.sh
packages=$(find . -name target -prune -o -name Cargo.toml -print | sort)
[ -n "$packages" ] || { echo "there is no Cargo.toml"; exit 1; }
while IFS= read -r package; do
    cargo fmt --check --manifest-path "$package"
done <<< "$packages"
/usr/bin/python3 -m black --quiet --check --config python/pyproject.toml python tools/scale tools/port || { echo "the Python sources are not in the layout"; exit 1; }
/usr/bin/python3 -m pyflakes python tools/scale tools/port
echo "the Rust packages and the Python sources are in the layout: $(tr '\n' ' ' <<< "$packages")python tools/scale tools/port"
