#!/usr/bin/env bash
# The tests of the tool that makes wrong programs; the tool itself is run by hand.
set -euo pipefail
cd "$(dirname "$0")/../.."
. .ci/variables.sh
cargo test --release --offline --quiet --manifest-path tools/wrong/Cargo.toml
