#!/usr/bin/env bash
# compare.sh [SEED [COUNT [DRIVE]]]: runs COUNT random event files of SEED through `drive` and through the published Rust, and holds the lines to each
# other; where a batch wakes its tasks out of order, those of the amended Rust (README.md). Without DRIVE, a drive is built from the sources as they stand. A
# differing file is cut down and printed as text.
set -euo pipefail
cd "$(dirname "$0")/.."
seed=${1:-1} count=${2:-1000} drive=${3:-}
room=$(mktemp -d)
trap 'rm -rf "$room"' EXIT
if [ -z "$drive" ]; then
    drive=$room/drive
    bash tools/quickbuild.sh drive "$drive"
fi
target=$(realpath -m "${CARGO_TARGET_DIR:-harness/target}")
(cd harness && cargo build --release --offline --quiet --target-dir "$target")
mkdir "$room/differs"
if ! "$target/release/harness" compare "$drive" "$seed" "$count" "$room/differs"; then
    for file in "$room"/differs/*.bin; do
        echo "as text:"
        # the same line many times is written as a repeat
        python3 tools/records.py text "$file" | uniq -c | sed -E 's/^ +1 //; s/^ +([0-9]+) /repeat \1 /'
    done
    exit 1
fi
