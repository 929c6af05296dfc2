#!/usr/bin/env bash
# A chapter of 30,000 characters: keyed, seen with its faults, mended, seen whole, and punched.
# usage: examples/chapter.sh [PROGRAM]; it works in a folder of its own, which it removes.
set -euo pipefail
here="$(cd "$(dirname "$0")" && pwd)"
desk="${1:-$here/../crates/copydesk/out/copydesk}"
room="$(mktemp -d)"
trap 'rm -r "$room"' EXIT
cp "$here/case12.toml" "$here/wedge5.toml" "$here/chapter.txt" "$room"
cd "$room"

"$desk" import chapter.feed --site 1 < chapter.txt
"$desk" desk chapter.feed --site 1 <<'END'
set 1 measure 400
set 1 tight 40
set 1 loose 150
set 1 case 12
set 1 wedge 5
END

# Lines that are too loose: a long word does not fit. Until they are mended there is no ribbon.
echo "-- faults"
"$desk" proof chapter.feed --case case12.toml --wedge wedge5.toml --faults || true
"$desk" punch chapter.feed --case case12.toml --wedge wedge5.toml -o chapter.rib || true
ls

# The dashes are set off by spaces, in an editor; what is alike stays.
echo "-- mended"
"$desk" export chapter.feed | sed 's/margin—whether/margin, whether/; s/_italic_—and/italic, and/; s/italic—and/italic, and/' > chapter.edit
"$desk" import chapter.feed --site 1 < chapter.edit
"$desk" proof chapter.feed --case case12.toml --wedge wedge5.toml
"$desk" punch chapter.feed --case case12.toml --wedge wedge5.toml -o chapter.rib
"$desk" check chapter.feed chapter.rib case12.toml wedge5.toml

# What a caster would cast of it, the sorts that it takes, and pictures of both for a browser.
echo "-- read"
"$desk" read chapter.rib --case case12.toml --wedge wedge5.toml --svg ribbon.svg
"$desk" sorts chapter.feed --case case12.toml --layout
"$desk" proof chapter.feed --case case12.toml --wedge wedge5.toml --faults --svg galley.svg
cksum ribbon.svg galley.svg
