#!/usr/bin/env bash
# The Rust model against document 01, and every exported call and the program `normal` compared with it on random inputs.
set -euo pipefail
cd "$(dirname "$0")/../.."
. .ci/variables.sh
bash tools/build.sh host
bash tools/build.sh normal
cd tests
cargo test --release --offline --quiet --features files,nodes,program
