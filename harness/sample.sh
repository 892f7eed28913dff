#!/usr/bin/env bash
# Writes cases/rust/: 32 random event files of seed 11 as text, each record with the answer that the Rust gave: NNNN as published, in files whose batches all wake
# their tasks in order; amended-NNNN with document 02's No. 7 behind each batch, in the others. The gate replays them without Rust.
set -euo pipefail
cd "$(dirname "$0")"
cargo build --release --offline --quiet
room=$(mktemp -d)
trap 'rm -rf "$room"' EXIT
target/release/harness files 11 4 32 "$room"
rm -rf ../cases/rust
mkdir ../cases/rust
for file in "$room"/*.bin; do
    name=$(basename "$file" .bin)
    case $name in amended-*) rust="the amended Rust" ;; *) rust="the published Rust" ;; esac
    {
        echo "# File ${name#amended-} of seed 11 (harness/sample.sh): random events, and what $rust answered."
        python3 ../tools/records.py text "$file" "$room/$name.out"
    } >"../cases/rust/$name.txt"
done
