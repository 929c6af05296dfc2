#!/usr/bin/env bash
# A day at two sites over stored feeds: each room keeps its own feed, and takes the other's when the line is up.
# usage: examples/day.sh [PROGRAM]; else it takes copydesk from the path, or as it is built beside the examples. It works in
# a folder of its own, which it removes.
set -euo pipefail
here="$(cd "$(dirname "$0")" && pwd)"
built="$here/../crates/copydesk/out/copydesk"
desk="$(realpath "${1:-$(command -v copydesk || echo "$built")}")"
room="$(mktemp -d)"
trap 'rm -r "$room"' EXIT
cp "$here/case12.toml" "$here/wedge5.toml" "$room"
cd "$room"

hex() { od -An -v -tx1 "$1" | tr -d ' \n'; }
site() { echo "-- site $1"; "$desk" desk "$1.feed" --site "$1"; }

# Morning: site 1 keys the copy and the job's settings.
site 1 <<'END'
insert 1 0 r"The sheets are in the galleys agian. Send word by noon."
set 1 measure 150
set 1 tight 40
set 1 loose 200
set 1 case 12
set 1 wedge 5
END

# Site 2 takes site 1's feed, and corrects: the word, and a word more.
site 2 <<END
take 2 $(hex 1.feed)
delete 2 32
insert 2 33 r"i"
insert 2 4 r"last "
show 2
END

# Meanwhile site 1, cut off, changes the end.
site 1 <<'END'
insert 1 54 r" at latest"
show 1
END

# Evening: each takes the other's feed. Both show one copy, and write one ribbon.
site 1 <<END
take 1 $(hex 2.feed)
faults 1
show 1
cast 1 case12.toml wedge5.toml
END
site 2 <<END
take 2 $(hex 1.feed)
show 2
cast 2 case12.toml wedge5.toml
END
cmp 1.feed 2.feed && echo "-- the two feeds are one"
