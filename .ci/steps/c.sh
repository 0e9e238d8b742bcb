#!/usr/bin/env bash
# The C header and the C examples: compiled with every warning an error, and run, plainly, under the sanitizers, and under valgrind; the
# example host on the example files.
set -euo pipefail
cd "$(dirname "$0")/../.."
. .ci/variables.sh
bash .ci/tools.sh
bash tools/build.sh host
work=$(mktemp -d)
trap 'rm -rf "$work"' EXIT
library=target/staticlib/libhost.a
strict=(-Wall -Wextra -Wpedantic -Werror -Iinclude)

for standard in c++11 c++20; do
    g++ -std=$standard "${strict[@]}" -Wconversion -Wsign-conversion -Wshadow -Wold-style-cast -Wzero-as-null-pointer-constant \
        examples/header.cc $library -o "$work/header"
    "$work/header"
done
checks=(-g -fsanitize=address,undefined -fno-sanitize-recover=all)
gcc -std=c11 -O2 "${strict[@]}" examples/calls.c $library -o "$work/calls"
gcc -std=c11 "${checks[@]}" "${strict[@]}" examples/calls.c $library -o "$work/calls_checked"
gcc -std=c11 -O2 "${strict[@]}" examples/host.c $library -o "$work/host"
gcc -std=c11 "${checks[@]}" "${strict[@]}" examples/host.c $library -o "$work/checked"
"$work/calls"
"$work/calls_checked"

b=examples/b
# run EXPECTED-STATUS CORRIDOR DEMANDS CASE COMMAND..: what the host prints for a case is what examples/expected has
run() {
    local want=$1 corridor=$2 demands=$3 case=$4 got=0
    shift 4
    "$@" 2 1 "$b/$corridor.blocks" "$b/$demands.blocks" "$b/$case.blocks" "$work/plan.blocks" > "$work/out" || got=$?
    [ "$got" = "$want" ] || { echo "$case: status $got, not $want"; cat "$work/out"; exit 1; }
    diff "examples/expected/$case.txt" "$work/out"
}
tools=("$work/host" "$work/checked")
for tool in "${tools[@]}"; do
    for case in case1 case3 case4 case6; do run 0 corridor demands $case "$tool"; done
    run 1 corridor demands case5 "$tool"
    for case in case11 case12; do run 0 corridor downstream $case "$tool"; done
    run 1 corridor downstream case13 "$tool"
    run 0 drop demands case14 "$tool"
    run 1 drop demands case15 "$tool"
    run 0 drop downstream case11 "$tool"
    run 0 corridor demands case16 "$tool"
    run 1 corridor demands case17 "$tool"
    run 0 drop downstream case18 "$tool"
done
valgrind --quiet --error-exitcode=9 "$work/calls"
run 0 corridor demands case1 valgrind --quiet --error-exitcode=9 "$work/host"
run 1 corridor demands case5 valgrind --quiet --error-exitcode=9 "$work/host"
run 0 corridor downstream case12 valgrind --quiet --error-exitcode=9 "$work/host"
run 1 drop demands case15 valgrind --quiet --error-exitcode=9 "$work/host"
run 1 corridor demands case17 valgrind --quiet --error-exitcode=9 "$work/host"

# refused TEXT N K CORRIDOR DEMANDS RECORD: the host says so
refused() {
    local text=$1 got=0
    shift
    "$work/checked" "$@" > "$work/out" || got=$?
    if [ "$got" != 1 ] || ! grep -q "$text" "$work/out"; then
        echo "$*: status $got, and not: $text"
        cat "$work/out"
        exit 1
    fi
}
head -c 511 $b/demands.blocks > "$work/cut.blocks"
refused 'refused by 16 at row 0, node 0: .* (record)$' 2 1 $b/corridor.blocks $b/demands.blocks "$work/plan.blocks"
refused 'refused by 16 at row 0, node 0: .* (corridor)$' 2 1 $b/demands.blocks $b/demands.blocks $b/case1.blocks
head -c 511 $b/drop.blocks > "$work/short.blocks"
refused 'refused by 14 at row 0, node 0: .* (corridor)$' 2 1 "$work/short.blocks" $b/demands.blocks $b/case14.blocks
refused 'refused by 14 at row 0, node 0: .* (demands)$' 2 1 $b/corridor.blocks "$work/cut.blocks" $b/case1.blocks
refused 'refused by 14 at row 0, node 0: .* (demands)$' 2 1 $b/corridor.blocks /dev/null $b/case1.blocks
head -c 511 $b/case16.blocks > "$work/ended.blocks"
refused 'refused by 14 at row 0, node 0: .* (record)$' 2 1 $b/corridor.blocks $b/demands.blocks "$work/ended.blocks"
refused 'refused by 1 at row 0, node 0: .* (corridor)$' 3 1 $b/corridor.blocks $b/demands.blocks $b/case1.blocks
refused 'refused by 1 at row 0, node 0: .* (N or K)$' 0 1 $b/corridor.blocks $b/demands.blocks $b/case1.blocks
echo "the C examples agree with document 01 and requests 01, 02, 04 and 07"
