#!/usr/bin/env bash
# Public calls ask nothing of their caller: no `requires` stands outside modules named `inner`.
set -euo pipefail
cd "$(dirname "$0")/.."
files=$(find crates/*/src -name '*.rt' -not -path '*/src/inner/*' -not -name inner.rt)
[ -n "$files" ] || { echo "there is no code"; exit 1; }
if grep -nE '^ *requires\b' $files; then
    echo "a public call asks something of its caller"
    exit 1
fi
echo "no public call asks anything of its caller"
