#!/usr/bin/env bash
# Refuses a must-fail edit that the toolchain would not apply as it is written, with file and line. The toolchain reads `file: `, then pairs of
# `old: ` and `new: `, one line each, and passes over every other line, so that a text of two lines would lose its second.
# Told a folder, it looks at the crates there.
set -euo pipefail
shopt -s inherit_errexit
cd "${1:-$(dirname "$0")/..}"

# read_edit CRATE EDIT: prints each fault as FILE:LINE: FAULT
read_edit() {
    awk -v crate="$1" '
        function fault(what) { print FILENAME ":" FNR ": " what }
        # The text of the file that the edit names, with the pairs before applied; loaded once.
        function named(path,    line, got) {
            if (path in text) return 1
            if (path !~ /^(src|specs|proofs)\// || ("/" path "/") ~ /\/(\.\.?)?\//) return 0
            text[path] = ""
            while ((got = (getline line < (crate "/" path))) > 0) text[path] = text[path] line "\n"
            if (got < 0) delete text[path]
            return got == 0
        }
        function apply(    at, rest) {
            at = index(text[file], old)
            rest = substr(text[file], at + length(old))
            if (old == new) fault("old and new are the same")
            else if (!at) fault("old is not in " file)
            else if (index(rest, old)) fault("old is in " file " more than once")
            else text[file] = substr(text[file], 1, at - 1) new rest
        }
        !/^(# |file: |old: .|new:)/ { fault("the toolchain passes over this line"); next }
        waiting && !/^new:/ { fault("the old before has no new on the next line") }
        /^# / { next }
        /^file: / {
            if (file != "" && !pairs) fault("the file before has no pair of old and new")
            file = substr($0, 7)
            pairs = waiting = 0
            known = named(file)
            if (!known) fault("there is no " file " under src/, specs/ or proofs/")
            next
        }
        /^old: / {
            if (file == "") fault("old without a file")
            old = substr($0, 6)
            waiting = 1
            next
        }
        {
            new = substr($0, 5)
            sub(/^ /, "", new)
            if (!waiting) fault("new without an old on the line before")
            else if (known) apply()
            pairs++
            waiting = 0
        }
        END { if (waiting) fault("old has no new after it"); else if (!pairs) fault("no pair of old and new") }
    ' "$2"
}

edits=$(find crates -path 'crates/*/must-fail/*' -type f -name '[A-Za-z0-9_-]*.edit' | sort)
faults=$(
    for edit in $edits; do read_edit "${edit%/must-fail/*}" "$edit"; done
    find crates -path '*/must-fail/*' -regextype posix-extended ! -regex 'crates/[^/]+/must-fail/[A-Za-z0-9_-][A-Za-z0-9_.-]*\.edit' \
        -printf '%p: the toolchain passes over this file\n'
)
[ -n "$edits" ] || faults+="${faults:+$'\n'}crates: there is no must-fail edit"
if [ -n "$faults" ]; then
    echo "$faults"
    exit 1
fi
echo "$(wc -l <<< "$edits") must-fail edits are applied as they are written"
