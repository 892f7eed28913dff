#!/usr/bin/env bash
# quickbuild.sh NAME OUT: builds the program NAME into OUT by `rt run`, on an empty input: the crates that it stands on are proved first, over what earlier checks
# in this checkout kept.
set -euo pipefail
[ $# -eq 2 ] || { echo "usage: quickbuild.sh NAME OUT" >&2; exit 2; }
name=$1
out=$(realpath -m "$2")
cd "$(dirname "$0")/../crates/$name"
said=$(mktemp)
trap 'rm -f "$said"' EXIT
rm -f "out/$name"
rt run </dev/null >"$said" 2>&1 || true
[ -x "out/$name" ] || { cat "$said" >&2; echo "quickbuild: $name was not built" >&2; exit 1; }
cp "out/$name" "$out"
