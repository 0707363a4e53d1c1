#!/bin/sh
# Makes docs/page.png anew, the picture of the page of the production plan: tools/page_picture.sh [PROGRAM]
# It needs a headless chromium, as of Debian's package of that name, and only for this. Without a word the program is the
# one that ./iisan-page proves and builds.
set -eu

top=$(CDPATH='' cd -- "$(dirname -- "$0")/.." && pwd)
room=$(mktemp -d)
trap 'rm -rf "$room"' EXIT
program=$(realpath -- "${1:-$top/iisan-page}")
cd -- "$top"
"$program" examples/production.lp examples/production.irreducible.report >"$room/page.html"
chromium --headless --no-sandbox --disable-gpu --hide-scrollbars --window-size=800,1400 --screenshot="$room/page.png" \
    "file://$room/page.html" >/dev/null 2>&1
cp "$room/page.png" docs/page.png
