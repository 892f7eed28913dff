#!/usr/bin/env bash
# timeline_shot.sh FILE OUT.png [RECORD]: makes the timeline of an event file, tries the keyboard on it in headless Chromium (Debian: chromium) and
# takes a picture, with RECORD looked at. Outside the gate. DRIVE names the program drive; WIDTH and HEIGHT are 1400 and 1330 by default.
set -euo pipefail
[ $# -ge 2 ] || { echo "usage: timeline_shot.sh FILE OUT.png [RECORD]" >&2; exit 2; }
tools=$(dirname "$(realpath "$0")")
room=$(mktemp -d)
trap 'rm -rf "$room"' EXIT
python3 "$tools/timeline.py" "$1" -o "$room/page.html" ${DRIVE:+--drive "$DRIVE"} >/dev/null
python3 "$tools/timeline/browser.py" "$room/page.html" --keys
python3 "$tools/timeline/browser.py" "$room/page.html" "$2" --look "${3:-1}" --width "${WIDTH:-1400}" --height "${HEIGHT:-1330}"
