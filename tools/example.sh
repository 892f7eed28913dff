#!/usr/bin/env bash
# example.sh FILE.txt: builds `drive` (proved: tools/quickbuild.sh) and runs a text of records through it; each answer stands behind its record.
set -euo pipefail
[ $# -eq 1 ] || { echo "usage: example.sh FILE.txt" >&2; exit 2; }
file=$(realpath "$1")
cd "$(dirname "$0")/.."
room=$(mktemp -d)
trap 'rm -rf "$room"' EXIT
bash tools/quickbuild.sh drive "$room/drive"
python3 tools/records.py bytes "$file" >"$room/records"
"$room/drive" <"$room/records" >"$room/lines"
python3 tools/records.py text "$room/records" "$room/lines"
echo
echo "what drive wrote:"
cat "$room/lines"
