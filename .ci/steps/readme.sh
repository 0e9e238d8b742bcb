#!/usr/bin/env bash
# The commands of README.md, run as they are written there, and what they print: those of the tool in an empty folder, from the Debian package
# unpacked, the others from the root.
set -euo pipefail
cd "$(dirname "$0")/../.."
. .ci/variables.sh
work=$(mktemp -d)
trap 'rm -rf "$work"' EXIT

# passages LABEL: the lines of README.md between fences with that label
passages() {
    awk -v opening="\`\`\`$1" '$0 == opening { inside = 1; next } /^```$/ { inside = 0 } inside' README.md
}

passages sh > "$work/commands"
bash -euo pipefail "$work/commands" > "$work/out"
for line in 'PLAN 1 3 370' '0 20 50 32768 F' 'PLAN 1 3 400' 'PLAN 1 3 390' 'PLAN 1 3 396' '0 20 26 32768 F' 'step 0, node 1: rate 50, limit 32768'; do
    grep -qx "$line" "$work/out" || { echo "the commands of README.md do not print: $line"; exit 1; }
done

bash tools/package/deb.sh "$work/package"
dpkg-deb -x "$work"/package/gigorchid_*_amd64.deb "$work/unpacked"
mkdir "$work/empty"
passages shell > "$work/tool"
(cd "$work/empty" && PATH="$work/unpacked/usr/bin:$PATH" bash -euo pipefail "$work/tool") > "$work/out"
passages python > "$work/program"
(cd "$work/empty" && PYTHONPATH="$work/unpacked/usr/lib/python3/dist-packages" /usr/bin/python3 "$work/program") >> "$work/out"
quoted=$(grep '^    NOT VALID: ' README.md)
for line in "${quoted#    }" 'status 1' 'status 2' 'VALID: within bounds, and every queue within its limit' 'Barrett          85.531250'; do
    grep -qxF "$line" "$work/out" || { echo "the tool's commands of README.md do not print: $line"; cat "$work/out"; exit 1; }
done
[ "$(grep -c '^SAME on the road' "$work/out")" = 2 ] || { echo "README.md has not two plans that are the same"; exit 1; }
[ "$(grep -c '^DIFFERENT on the road' "$work/out")" = 1 ] || { echo "README.md has no plan that is another"; exit 1; }

# whole: README's test of a plan, with the plan in its place
test=$(grep '^awk ' "$work/commands")
whole() { (mkdir -p "$work/target" && cd "$work" && cat > target/plan.txt && eval "$test"); }
printf 'PLAN 1 3 370\n0 10 0 0 F\n0 20 50 32768 F\n0 30 0 32768 F\n' | whole
for text in '' 'REFUSED 9 0 1\n' 'PLAN 1 3 370\n0 10 0 0 F\n0 20 50 32768 F\n'; do
    if printf "$text" | whole; then
        echo "README's test takes for a whole plan: $text"
        exit 1
    fi
done
echo "the commands of README.md do what it says"
