#!/usr/bin/env bash
# Shows that edits.sh bites: a sound edit passes, and each form that the toolchain would not apply as written is refused at its line.
set -euo pipefail
check=$(cd "$(dirname "$0")" && pwd)/edits.sh
work=$(mktemp -d)
trap 'rm -rf "$work"' EXIT
mkdir -p "$work/crates/sample/src" "$work/crates/sample/must-fail"
printf 'fn one() -> u32 {\n    1\n}\nfn two() -> u32 {\n    2\n}\nfn last() {}\n' > "$work/crates/sample/src/lib.rt"

# outcome FILE LINE..: what the check says of that file with those lines, alone in its crate, and its status
outcome() {
    local file=$1
    shift
    rm -rf "$work"/crates/sample/must-fail/*
    mkdir -p "$(dirname "$work/crates/sample/must-fail/$file")"
    [ $# -eq 0 ] || printf '%s\n' "$@" > "$work/crates/sample/must-fail/$file"
    bash "$check" "$work" 2>&1 && echo "status 0" || echo "status $?"
}

# expect WANTED GOT
expect() {
    [ "$1" = "$2" ] || { printf 'wanted:\n%s\ngot:\n%s\n' "$1" "$2"; exit 1; }
}

# sound LINE..; refused LINE FAULT LINE..: an edit of those lines passes; is refused at that line, for that fault alone
sound() {
    expect $'1 must-fail edits are applied as they are written\nstatus 0' "$(outcome a.edit "$@")"
}
refused() {
    local place="crates/sample/must-fail/a.edit:$1" fault=$2
    shift 2
    expect "$place: $fault"$'\nstatus 1' "$(outcome a.edit "$@")"
}

passed_over='the toolchain passes over this line'
file='file: src/lib.rt'
sound "$file" 'old:     1' 'new:     0'
sound '# one and two change places' "$file" 'old:     1' 'new:     3' 'old:     2' 'new:     1' 'old:     3' 'new:     2'
sound "$file" 'old: fn last() {}' 'new:'
refused 3 "$passed_over" "$file" 'old: fn one() -> u32 {' '    1' 'new: fn one() -> u64 {'
refused 4 "$passed_over" "$file" 'old: fn one() -> u32 {' 'new: fn one() -> u64 {' '    1'
refused 2 "$passed_over" "$file" ' old:     1' 'old:     1' 'new:     0'
refused 2 "$passed_over" "$file" 'old:' 'old:     1' 'new:     0'
refused 4 "$passed_over" "$file" 'old:     1' 'new:     0' ''
refused 1 "$passed_over" '#no space' "$file" 'old:     1' 'new:     0'
refused 1 'old without a file' 'old:     1' 'new:     0'
refused 2 'new without an old on the line before' "$file" 'new:     0' 'old:     1' 'new:     0'
refused 4 'new without an old on the line before' "$file" 'old:     1' 'new:     0' 'new:     3'
refused 3 'the old before has no new on the next line' "$file" 'old:     1' 'old:     2' 'new:     0'
refused 3 'the old before has no new on the next line' "$file" 'old:     1' '# why' 'new:     0'
refused 4 'old has no new after it' "$file" 'old:     1' 'new:     0' 'old:     2'
refused 2 'the file before has no pair of old and new' "$file" "$file" 'old:     1' 'new:     0'
refused 1 'no pair of old and new' '# nothing'
refused 4 'no pair of old and new' "$file" 'old:     1' 'new:     0' "$file"
refused 1 'there is no src/other.rt under src/, specs/ or proofs/' 'file: src/other.rt' 'old:     1' 'new:     0'
refused 1 'there is no src/../../x under src/, specs/ or proofs/' 'file: src/../../x' 'old:     1' 'new:     0'
refused 1 'there is no src//lib.rt under src/, specs/ or proofs/' 'file: src//lib.rt' 'old:     1' 'new:     0'
refused 3 'old is not in src/lib.rt' "$file" 'old:     7' 'new:     0'
refused 3 'old is in src/lib.rt more than once' "$file" 'old: -> u32 {' 'new: -> u64 {'
refused 3 'old and new are the same' "$file" 'old:     1' 'new:     1'
none='crates: there is no must-fail edit'
expect "$none"$'\nstatus 1' "$(outcome ../no.edit '# nothing')"
expect 'crates/sample/must-fail/a.edits: the toolchain passes over this file'$'\n'"$none"$'\nstatus 1' "$(outcome a.edits "$file")"
expect 'crates/sample/must-fail/one(1).edit: the toolchain passes over this file'$'\nstatus 1' "$(outcome 'one(1).edit' "$file" 'old:     1' 'new:     0')"
echo "faulty must-fail edits are refused"
