#!/usr/bin/env bash
# The words of the command line, of the program as built: words.sh [PROGRAM].
set -euo pipefail
program=$(realpath "${1:-$(dirname "$0")/../crates/copydesk/out/copydesk}")
examples=$(realpath "$(dirname "$0")/../examples")
texts=$(realpath "$(dirname "$0")/words_texts.sh")
pages=$(realpath "$(dirname "$0")/words_pages.sh")
folder=$(mktemp -d)
trap 'rm -rf "$folder"' EXIT
trap 'echo "words: ${BASH_SOURCE[0]##*/}, line $LINENO is not as it must be" >&2' ERR
cd "$folder"

# The status, and what stands first on standard error.
expect() {
  local status=$1 told=$2 got=0
  shift 2
  "$program" "$@" < /dev/null > written 2> faults || got=$?
  if [ "$got" != "$status" ] || [[ "$(cat faults)" != "$told"* ]]; then
    echo "copydesk $*: status $got, $(head -c 200 faults)" >&2
    exit 1
  fi
}

expect 2 error:
expect 2 error: desk a.feed --site 0
expect 2 error: desk a.feed --site 65536
expect 2 error: desk a.feed
expect 2 error: $'\xff'
expect 2 error: desk $'\xff' --site 1
expect 0 "" --help
expect 0 "" script
expect 0 "" desk a.feed --site 65535
[ "$(head -c 4 a.feed)" = MFD2 ]
[ "$(wc -c < a.feed)" = 4 ]

# Status 1, these lines on standard error and no others, and no output. It reads the file `given`, or nothing.
refused() {
  local told=$1 got=0
  shift
  "$program" "$@" < "${given:-/dev/null}" > written 2> faults || got=$?
  if [ "$got" != 1 ] || [ "$(cat faults)" != "$told" ] || [ -s written ]; then
    echo "copydesk $*: status $got, $(head -c 200 written), $(head -c 300 faults)" >&2
    exit 1
  fi
}

# A run whose output is full stops, and its second line names the output.
full() {
  local got=0
  "$program" "$@" < /dev/null 2> faults > /dev/full || got=$?
  if [ "$got" != 1 ] || [ "$(cat faults)" != "copydesk: write fault
standard output: it cannot be written" ]; then
    echo "copydesk $* with a full output: status $got, $(head -c 200 faults)" >&2
    exit 1
  fi
}

# Two feeds are merged, the copy goes out as text and comes in.
expect 0 "" import b.feed --site 2 --plain
expect 2 error: merge a.feed
expect 2 error: export
expect 2 error: import a.feed --site 0
expect 2 error: import a.feed
expect 1 "copydesk: file fault
none.feed: it cannot be read" merge a.feed none.feed
expect 1 "copydesk: file fault
none.feed: it cannot be read" export none.feed
[ ! -e none.feed ]
printf 'One _two_ ^three^\r\n' | "$program" import b.feed --site 2 > written
[ "$(cat written)" = "ok inserted 14 deleted 0" ]
"$program" merge a.feed b.feed b.feed > written
[ "$(cat written)" = "b.feed ok new 14 known 0
b.feed ok new 0 known 14
faults none" ]
[ "$("$program" export a.feed)" = 'One _two_ ^three^' ]
cmp a.feed b.feed
printf 'ab\n\tc' > text
got=0
"$program" import a.feed --site 1 < text > written 2> faults || got=$?
[ "$got" = 1 ]
[ ! -s written ]
[ "$(cat faults)" = "copydesk: line 2, column 1: no symbol of a copy" ]
cmp a.feed b.feed
printf 'MFD2\x09' > bad.feed
expect 1 "copydesk: feed refused
bad.feed: byte 4: no such kind of operation" merge a.feed b.feed bad.feed
expect 1 "copydesk: feed refused
bad.feed: byte 4: no such kind of operation" merge a.feed bad.feed b.feed
expect 1 "copydesk: file fault
none.feed: it cannot be read" merge a.feed b.feed none.feed b.feed
expect 1 "copydesk: feed refused
bad.feed: byte 4: no such kind of operation" export bad.feed
full export a.feed
full merge a.feed b.feed
cmp a.feed b.feed
chmod a-w a.feed
if [ "$(id -u)" != 0 ]; then
  expect 1 "copydesk: file fault
a.feed: it cannot be stored anew" merge a.feed b.feed
fi
chmod u+w a.feed
exec 3> a.feed.lock
flock 3
expect 1 "copydesk: file fault
a.feed: another desk has it open" merge a.feed b.feed
expect 1 "copydesk: file fault
a.feed: another desk has it open" import a.feed --site 1
expect 0 "" export a.feed
exec 3>&-
expect 0 "" merge a.feed b.feed

# Both forms of a feed open one set, with equal answers; and what is no feed of runs has its first fault.
put() { printf "$(tr -d ' \n' <<< "$1" | sed 's/../\\x&/g')"; }
put '4d464431 01 0000000000000001 0001 0000000000000000 0000 00 00000061 01 0000000000000002 0001 0000000000000001 0001 00 00000062' > singles.feed
put '4d464432 04 0000000000000001 0001 0000000000000000 0000 02 00 00000061 00 00000062' > runs.feed
expect 0 "" diff singles.feed runs.feed
[ "$(cat written)" = "singles.feed alone none
runs.feed alone none" ]
for feed in singles runs; do
  cp $feed.feed stored.feed && rm -f stored.feed.last
  printf 'show 7\nfaults 7\nsettings 7\nfeed 7\ninsert 7 1 r"x"\nshow 7\n' | "$program" desk stored.feed --site 7 > $feed.answers
  cp stored.feed $feed.stored
done
cmp singles.answers runs.answers
cmp singles.stored runs.stored
[ "$(head -1 runs.answers)" = 'copy r"ab"' ]
cat > commands <<'END'
site 1
take 1 4d46443204000000000000000100010000000000000000000001
take 1 4d46443204000000000000000100010000000000000000000041
take 1 4d464432040000000000000001000100000000000000000000
take 1 4d46443204000000000000000100010000000000000000000002
take 1 4d4644320440000000000000000001000000000000000000000200000000610000000062
take 1 4d46443104
show 1
END
"$program" script < commands > written
[ "$(cat written)" = 'ok
refused feed 4 run
refused feed 4 run
refused feed 4 cut
refused feed 4 cut
refused feed 4 unlawful 1
refused feed 4 kind
copy' ]

# A galley is shown, and its ribbon stored: the bytes are those that the command `ribbon` answers.
cp "$examples/case12.toml" "$examples/wedge5.toml" .
metal=(--case case12.toml --wedge wedge5.toml)
expect 2 error: proof c.feed --case case12.toml
expect 2 error: punch c.feed "${metal[@]}"
expect 1 "copydesk: file fault
c.feed: it cannot be read" proof c.feed "${metal[@]}"
expect 0 "" import c.feed --site 1
expect 1 "" proof c.feed "${metal[@]}"
[ "$(cat written)" = "no galley: the settings measure, tight, loose, case and wedge have no value" ]
expect 1 "" proof c.feed "${metal[@]}" --set measure=150 --set loose=200 --set wedge=5 --svg none.svg
[ "$(cat written)" = "no galley: the settings tight and case have no value" ]
grep -q ">no galley: the settings tight and case have no value<" none.svg
expect 1 "" proof c.feed "${metal[@]}" --set measure=150 --set tight=40 --set loose=200 --set wedge=5
[ "$(cat written)" = "no galley: the setting case has no value" ]
expect 1 "copydesk: no ribbon
c.feed: its job has faults" punch c.feed "${metal[@]}" -o c.rib
[ "$(cat written)" = "no ribbon: missing measure, missing tight, missing loose, missing case, missing wedge" ]
[ ! -e c.rib ]
rm none.svg
cat > commands <<'END'
set 1 measure 150
set 1 tight 40
set 1 loose 200
set 1 case 12
set 1 wedge 5
insert 1 0 r"The last sheets are in the galleys again. Send word by noon at latest."
END
"$program" desk c.feed --site 1 < commands > written
cp c.feed before.feed
expect 0 "" proof c.feed "${metal[@]}"
[[ "$(head -1 written)" = "GALLEY 3 lines, 0 at fault, measure 150 points, tight 40, loose 200" ]]
grep -q 'The last sheets are in the' written
expect 0 "" proof c.feed --faults "${metal[@]}"
[ "$(wc -l < written)" = 1 ]
expect 0 "" punch c.feed "${metal[@]}" -o c.rib
[ ! -s written ]
[ ! -e c.rib.new ]
echo 'ribbon 1 case12.toml wedge5.toml' | "$program" desk c.feed --site 1 > written
[ "$(cat written)" = "ribbon $(od -An -v -tx1 c.rib | tr -d ' \n')" ]
cmp c.feed before.feed
echo 'set 1 loose 50' | "$program" desk c.feed --site 1 > written
cp c.rib before.rib
expect 1 "copydesk: no ribbon
c.feed: its job has faults" punch c.feed "${metal[@]}" --output c.rib
cmp c.rib before.rib
for number in "case 7 case12.toml 12" "wedge 9 wedge5.toml 5"; do
  read -r name set file of <<< "$number"
  cp before.feed $name.feed
  echo "set 1 $name $set" | "$program" desk $name.feed --site 1 > written
  expect 1 "copydesk: no ribbon
$file: it is $name $of, and $name.feed has the setting $name $set" punch $name.feed "${metal[@]}" -o c.rib
  [ "$(cat written)" = "no ribbon: other $name" ]
  expect 1 "" proof $name.feed "${metal[@]}"
  [ "$(cat written)" = "no galley: the setting $name is $set, and the $name has the number $of" ]
done
cmp c.rib before.rib
expect 1 "" proof c.feed "${metal[@]}" --faults
grep -q '^line 1: too loose (wedge sum [0-9]*, limit 50), places 0\.\.26$' written
expect 1 "copydesk: input refused
wedge5.toml: a key of a case is missing" proof c.feed --case wedge5.toml --wedge wedge5.toml
expect 1 "copydesk: input refused
case12.toml: a key of a wedge is missing" punch c.feed --case case12.toml --wedge case12.toml -o c.rib
expect 1 "copydesk: input refused
case13.toml: it cannot be read" punch c.feed --case case13.toml --wedge wedge5.toml -o c.rib
cp c.feed before.feed
expect 1 "copydesk: file fault
c.feed: the ribbon would take its place" punch c.feed "${metal[@]}" -o c.feed
expect 1 "copydesk: file fault
case12.toml: the ribbon would take its place" punch c.feed "${metal[@]}" -o case12.toml
cmp c.feed before.feed
echo 'set 1 loose 200' | "$program" desk c.feed --site 1 > written
expect 1 "copydesk: file fault
none/c.rib" punch c.feed "${metal[@]}" -o none/c.rib
full proof c.feed "${metal[@]}"

# A picture is drawn beside the proof, settings are tried, a ribbon is read, and sorts are listed; the feed stays as it is.
cp c.feed before.feed
expect 0 "" punch c.feed "${metal[@]}" -o c.rib
expect 2 error: proof c.feed "${metal[@]}" --svg
expect 0 "" proof c.feed "${metal[@]}"
cp written proof.txt
expect 0 "" proof c.feed "${metal[@]}" --svg c.svg
cmp written proof.txt
[[ "$(head -c 5 c.svg)" = "<svg " ]]
[[ "$(tail -c 7 c.svg)" = "</svg>" ]]
[ ! -e c.svg.new ]
expect 1 "" proof c.feed "${metal[@]}" --set loose=50 --faults --svg tried.svg
grep -q '^line 1: too loose (wedge sum [0-9]*, limit 50), places 0\.\.26$' written
grep -q 'too loose' tried.svg
expect 0 "" proof c.feed "${metal[@]}" --set loose=50 --set loose=200
sets=()
for measure in 141 142 143 144 145 146 147 148 149 150; do sets+=(--set "measure=$measure"); done
expect 0 "" proof c.feed "${metal[@]}" "${sets[@]}"
cmp written proof.txt
expect 1 "copydesk: input refused
--set size=50: no setting, or no value that it may have" proof c.feed "${metal[@]}" "${sets[@]}" --set size=50 --set loose=50
expect 1 "" proof c.feed "${metal[@]}" --set case=13
[ "$(cat written)" = "no galley: the setting case is 13, and the case has the number 12" ]
for text in loose=500 loose measure= =50 "loose =50" size=50 "loose=50 50" loose=0x50 loose=4294967346; do
  expect 1 "copydesk: input refused
--set $text: no setting, or no value that it may have" proof c.feed "${metal[@]}" --set "$text" --svg none.svg
  [ ! -s written ]
  [ ! -e none.svg ]
done
for name in c.feed case12.toml wedge5.toml; do
  expect 1 "copydesk: file fault
$name: the picture would take its place" proof c.feed "${metal[@]}" --svg $name
  [ ! -s written ]
done
expect 1 "copydesk: file fault
none/c.svg" proof c.feed "${metal[@]}" --svg none/c.svg
cmp written proof.txt
expect 1 "copydesk: file fault
none.feed: it cannot be read" proof none.feed "${metal[@]}" --svg none.svg
[ ! -e none.svg ]
expect 2 error: read c.rib --case case12.toml
expect 0 "" read c.rib "${metal[@]}"
cp written read.txt
grep -q 'The last sheets are in the$' written
expect 0 "" read c.rib "${metal[@]}" --svg holes.svg
cmp written read.txt
[[ "$(head -c 5 holes.svg)" = "<svg " ]]
[[ "$(tail -c 7 holes.svg)" = "</svg>" ]]
[ ! -e holes.svg.new ]
expect 1 "copydesk: file fault
c.rib: the picture would take its place" read c.rib "${metal[@]}" --svg c.rib
expect 1 "copydesk: file fault
none.rib: it cannot be read" read none.rib "${metal[@]}"
expect 1 "" read c.feed "${metal[@]}" --svg none.svg
[[ "$(cat written)" = "no ribbon: "* ]]
[ ! -e none.svg ]
expect 1 "copydesk: input refused
wedge5.toml: a key of a case is missing" read c.rib --case wedge5.toml --wedge wedge5.toml
cp wedge5.toml other5.toml
expect 1 "copydesk: input refused
other5.toml: a key of a case is missing" read c.rib --case other5.toml --wedge wedge5.toml
expect 1 "copydesk: input refused
other5.toml: a key of a case is missing" proof c.feed --case other5.toml --wedge wedge5.toml
expect 1 "copydesk: file fault
none/holes.svg" read c.rib "${metal[@]}" --svg none/holes.svg
cmp written read.txt
head -c -4 c.rib > cut.rib
expect 1 "" read cut.rib "${metal[@]}"
[[ "$(cat written)" = "no ribbon: "* ]]
expect 2 error: sorts c.feed
expect 0 "" sorts c.feed --case case12.toml
cp written sorts.txt
expect 0 "" sorts c.feed --case case12.toml --layout
[ "$(head -c "$(wc -c < sorts.txt)" written)" = "$(cat sorts.txt)" ]
expect 1 "copydesk: file fault
none.feed: it cannot be read" sorts none.feed --case case12.toml
expect 1 "copydesk: input refused
wedge5.toml: a key of a case is missing" sorts c.feed --case wedge5.toml
expect 1 "copydesk: input refused
case13.toml: it cannot be read" sorts c.feed --case case13.toml
cp c.feed short.feed
echo 'insert 1 0 r"~"' | "$program" desk short.feed --site 1 > written
expect 1 "" sorts short.feed --case case12.toml
grep -q "^missing Roman '~' (U+007E)" written
full sorts c.feed --case case12.toml
full read c.rib "${metal[@]}"
cmp c.feed before.feed

# A ribbon replaces a ribbon or an empty file, and a picture a picture; other files are kept, but where it is forced.
cp a.feed ch.feed
cp singles.feed ch1.feed
printf 'MFD2' > begun.feed
printf 'MR' > short.rib
printf 'MRB2\0\0\0\0' > other.rib
printf 'a note\n' > note.txt
printf ' MRB1' > space.rib
truncate -s 67108864 most
truncate -s 67108865 large
stands() {
  case $1 in
    ch.feed | ch1.feed | begun.feed) echo "a feed" ;;
    c.rib) echo "a ribbon" ;;
    c.svg) echo "a picture" ;;
    large) echo "a file of more than 67,108,864 bytes" ;;
    *) echo "another file" ;;
  esac
}
for name in ch.feed ch1.feed begun.feed short.rib other.rib note.txt space.rib most large c.svg case13.toml; do
  [ -e $name ] || cp case12.toml $name
  cksum $name > sum
  refused "copydesk: not replaced
$name: $(stands $name) stands there" punch c.feed "${metal[@]}" -o $name
  cksum $name | cmp - sum
done
for name in ch.feed ch1.feed begun.feed note.txt most large c.rib; do
  cksum $name > sum
  told="copydesk: not replaced
$name: $(stands $name) stands there"
  expect 1 "$told" proof c.feed "${metal[@]}" --svg $name
  cmp written proof.txt
  if [ $name != c.rib ]; then
    expect 1 "$told" read c.rib "${metal[@]}" --svg $name
    cmp written read.txt
  fi
  cksum $name | cmp - sum
done
rm most large case13.toml
cp c.rib made.rib
: > empty.rib
printf 'MRB1' > begun.rib
for name in made.rib empty.rib begun.rib; do
  expect 0 "" punch c.feed "${metal[@]}" -o $name
  cmp $name c.rib
done
: > empty.svg
printf '<svg' > begun.svg
for name in empty.svg begun.svg; do
  expect 0 "" proof c.feed "${metal[@]}" --svg $name
  cmp $name c.svg
  expect 0 "" read c.rib "${metal[@]}" --svg $name
  cmp $name holes.svg
done
for name in ch.feed note.txt; do
  expect 0 "" punch c.feed "${metal[@]}" -o $name --force
  cmp $name c.rib
  expect 0 "" proof c.feed "${metal[@]}" --svg $name --force
  cmp $name c.svg
  printf 'a note\n' > $name
  expect 0 "" read c.rib "${metal[@]}" --svg $name --force
  cmp $name holes.svg
done
for name in c.feed case12.toml wedge5.toml; do
  refused "copydesk: file fault
$name: the ribbon would take its place" punch c.feed "${metal[@]}" -o $name --force
  refused "copydesk: file fault
$name: the picture would take its place" proof c.feed "${metal[@]}" --svg $name --force
done
refused "copydesk: file fault
c.rib: the picture would take its place" read c.rib "${metal[@]}" --svg c.rib --force
mkdir folder.rib
for force in "" --force; do
  # shellcheck disable=SC2086
  expect 1 "copydesk: file fault
folder.rib" punch c.feed "${metal[@]}" -o folder.rib $force
  # shellcheck disable=SC2086
  expect 1 "copydesk: file fault
folder.rib" proof c.feed "${metal[@]}" --svg folder.rib $force
done
if [ "$(id -u)" != 0 ]; then
  printf 'MRB1' > shut.rib
  chmod 000 shut.rib
  expect 1 "copydesk: file fault
shut.rib: " punch c.feed "${metal[@]}" -o shut.rib
fi
cmp c.feed before.feed

# A copy with faults is punched only where it is asked for; they come before the faults of the job, and behind other input.
put '4d464431 02 0000000000000063 0009 0000000000000062 0009' > waits.feed
cp c.feed faulty.feed
expect 0 "" merge faulty.feed waits.feed
[ "$(cat written)" = "waits.feed ok new 1 known 0
faults waiting 99.9" ]
for to in made.rib none.rib ch.feed; do
  got=0
  "$program" punch faulty.feed "${metal[@]}" -o $to > written 2> faults || got=$?
  [ "$got" = 1 ]
  [ "$(cat written)" = "faults waiting 99.9" ]
  [ "$(cat faults)" = "copydesk: copy faults
faulty.feed: its copy has faults" ]
done
[ ! -e none.rib ]
cmp made.rib c.rib
expect 0 "" punch faulty.feed "${metal[@]}" -o none.rib --faulty
[ ! -s written ]
cmp none.rib c.rib
put '4d464431 01 0000000000000001 0001 0000000000000000 0000 00 00000061
  01 0000000000000002 0001 0000000000000001 0001 00 00000062 01 0000000000000002 0001 0000000000000001 0001 00 00000063
  01 0000000000000003 0002 0000000000000002 0001 00 00000064' > forked.feed
expect 1 "copydesk: copy faults
forked.feed: its copy has faults" punch forked.feed "${metal[@]}" -o none.rib
[ "$(cat written)" = "faults forked 2.1, void 3.2" ]
expect 1 "copydesk: no ribbon
forked.feed: its job has faults" punch forked.feed "${metal[@]}" -o none.rib --faulty
[ "$(cat written)" = "no ribbon: missing measure, missing tight, missing loose, missing case, missing wedge" ]
expect 1 "copydesk: input refused
wedge5.toml: a key of a case is missing" punch forked.feed --case wedge5.toml --wedge wedge5.toml -o none.rib
full punch forked.feed "${metal[@]}" -o none.rib
cmp none.rib c.rib

# A text is replaced where it stands once, and files are checked.
expect 2 error: replace c.feed --site 1 last
expect 2 error: replace c.feed --site 0 last first
expect 0 "" replace c.feed --site 1 'last sheets' 'last _proof_ sheets'
[ "$(cat written)" = "ok inserted 6 deleted 0" ]
cp c.feed before.feed
expect 1 "copydesk: no place" replace c.feed --site 1 'last sheets' sheets
[ "$(cat written)" = "no place" ]
expect 1 "copydesk: 2 places" replace c.feed --site 1 in at
full replace c.feed --site 1 in at
expect 1 "copydesk: OLD, line 1, column 1: " replace c.feed --site 1 '\q' sheets
expect 1 "copydesk: NEW, line 1, column 2: " replace c.feed --site 1 sheets 'a\q'
expect 1 "copydesk: file fault
none/c.feed" replace none/c.feed --site 1 sheets sheet
cmp c.feed before.feed
expect 0 "" replace c.feed --site 1 --plain -- galleys -
[[ "$("$program" export c.feed)" == "The last _proof_ sheets are in the - again."* ]]
expect 2 error: check
expect 0 "" check c.feed case12.toml wedge5.toml c.rib
[[ "$(sed -n 1p written)" == "c.feed ok: "*" symbols shown, faults none" ]]
[[ "$(sed -n 2p written)" == "case12.toml ok: case 12, 225 cells, "*" sorts" ]]
[ "$(sed -n 3p written)" = "wedge5.toml ok: wedge 5, set 12 (48 quarter points), pica sixth" ]
[[ "$(sed -n 4p written)" == "c.rib ok: "*" rows" ]]
expect 1 "" check bad.feed none.toml words.toml wedge5.toml
[ "$(cat written)" = "bad.feed feed refused: byte 4: no such kind of operation
none.toml no file
words.toml no file
wedge5.toml ok: wedge 5, set 12 (48 quarter points), pica sixth" ]
sed 's/\["i", "l", /["i", /' case12.toml > rows14.toml
sed '/\["G", "O", /d' case12.toml > few.toml
expect 1 "" check rows14.toml few.toml
[ "$(cat written)" = "rows14.toml case refused: \`rows\`: row 1 has 14 texts, and 15 are wanted
few.toml case refused: \`rows\`: 14 rows, and 15 are wanted" ]
sed 's/^units = .*/units = [9, 9, 9, 9, 9, 9, 9, 9, 9, 9, 9, 9, 9, 9, 9]/' wedge5.toml > even5.toml
expect 1 "" check case12.toml even5.toml
[ "$(sed -n 3p written)" = "case12.toml with even5.toml: the units of the fills do not descend" ]
expect 0 "" check case12.toml even5.toml wedge5.toml
[ "$(wc -l < written)" = 3 ]
got=0
"$program" check wedge5.toml 2> faults > /dev/full || got=$?
[ "$got" = 1 ]
[ "$(head -1 faults)" = "copydesk: write fault" ]

# Two feeds are told apart.
expect 2 error: diff c.feed
cp c.feed d.feed
expect 0 "" diff c.feed d.feed
[ "$(cat written)" = "c.feed alone none
d.feed alone none" ]
"$program" replace d.feed --site 9 _proof_ '_page proof_' > /dev/null
expect 1 "" diff c.feed d.feed
[[ "$(cat written)" == "c.feed alone none
d.feed alone 9: "*"
- 9 _proof_
+ 9 _page proof_" ]]
expect 1 "copydesk: file fault
none.feed: it cannot be read" diff c.feed none.feed
expect 1 "copydesk: feed refused
bad.feed: byte 4: no such kind of operation" diff bad.feed c.feed
expect 1 "copydesk: feed refused
bad.feed: byte 4: no such kind of operation" diff c.feed bad.feed
full diff c.feed d.feed

# A number that two rooms have used is refused at a merge, unless forks are asked for; who made what is said of each.
setting() { printf '03 %016x %04x 01 %08x ' "$1" "$2" "$3"; }
made() { setting 9 1 90; setting 7 3 "$1"; for at in 775 776 777 805; do setting $at 1 "$1"; done; }
put "4d464431 $(made 100)" > here.feed
put "4d464431 $(made 101) $(setting 778 1 100)" > there.feed
put "4d464431 $(setting 5 2 90) $(setting 5 2 91) $(setting 6 2 91)" > own.feed
cp here.feed before.feed
refused "copydesk: number used twice
there.feed: site 1 made 775..777 805, site 3 made 7 here and there" merge here.feed there.feed
refused "copydesk: number used twice
own.feed: site 2 made 5 here and there" merge here.feed own.feed
refused "copydesk: number used twice
own.feed: site 2 made 5 here and there" merge none.feed own.feed
refused "copydesk: number used twice
there.feed: site 1 made 775..777 805, site 3 made 7 here and there" merge here.feed here.feed there.feed own.feed none.feed bad.feed
expect 1 "copydesk: file fault
none.feed: it cannot be read" merge here.feed none.feed there.feed
refused "copydesk: feed refused
bad.feed: byte 4: no such kind of operation" merge here.feed bad.feed there.feed
put "4d464431 $(setting 8 4 90)" > three.feed
put "4d464431 $(setting 8 4 91)" > four.feed
refused "copydesk: number used twice
four.feed: site 4 made 8 here and there" merge here.feed three.feed four.feed
refused "copydesk: number used twice
three.feed: site 4 made 8 here and there" merge here.feed four.feed three.feed
cmp here.feed before.feed
[ ! -e none.feed ]
expect 0 "" merge here.feed there.feed own.feed --forks
[ "$(cat written)" = "there.feed ok new 6 known 1
own.feed ok new 3 known 0
faults forked 5.2, forked 7.3, forked 775.1, forked 776.1, forked 777.1, forked 805.1" ]
put "4d464431 $(setting 5 2 92)" > fifth.feed
expect 0 "" merge here.feed fifth.feed own.feed there.feed
[[ "$(cat written)" == "fifth.feed ok new 1 known 0
own.feed ok new 0 known 3
there.feed ok new 0 known 7
faults forked 5.2, "* ]]

# A feed is renewed by one site: its settings and its copy, and nothing that is at fault.
expect 2 error: renew new.feed
expect 2 error: renew new.feed c.feed
expect 2 error: renew new.feed c.feed --site 0
expect 2 error: renew new.feed c.feed --site 65536
put '4d464432 04 0000000000000001 0001 0000000000000000 0000 03 00 00000061 01 0000005f 00 00000062
  02 0000000000000004 0002 0000000000000001 0001 03 0000000000000005 0003 05 00000006
  03 0000000000000006 0001 01 00000090 03 0000000000000007 0001 05 00000005' > old.feed
expect 0 "" renew new.feed old.feed --site 7
[ "$(cat written)" = "ok renewed 2" ]
put '4d464432 03 0000000000000001 0007 01 00000090 03 0000000000000002 0007 05 00000005
  04 0000000000000003 0007 0000000000000000 0000 02 01 0000005f 00 00000062' | cmp - new.feed
cp new.feed before.feed
for name in new.feed old.feed; do
  refused "copydesk: already there
$name: it is there already" renew $name old.feed --site 7
done
cmp new.feed before.feed
: > empty.feed
refused "copydesk: already there
empty.feed: it is there already" renew empty.feed old.feed --site 7
[ ! -s empty.feed ]
expect 1 "copydesk: file fault
none.feed: it cannot be read" renew never.feed none.feed --site 7
[ ! -s written ]
refused "copydesk: feed refused
bad.feed: byte 4: no such kind of operation" renew never.feed bad.feed --site 7
expect 1 "copydesk: file fault
none/new.feed" renew none/new.feed old.feed --site 7
full renew never.feed old.feed --site 7
[ ! -e never.feed ]
[ ! -e none.feed ]
cp old.feed never.feed.new
expect 1 "copydesk: " renew never.feed never.feed.new --site 7
[ ! -e never.feed ]
cmp never.feed.new old.feed
rm never.feed.new
expect 0 "" renew bare.feed waits.feed --site 7
[ "$(cat written)" = "ok renewed 0" ]
[ "$(cat bare.feed)" = MFD2 ]

# A backup is restored and goes on under the first number: the merge is refused, a new number settles it, and all words stand.
expect 2 error: renumber home.feed
expect 2 error: renumber home.feed backup.feed
expect 2 error: renumber home.feed backup.feed --site 0
printf 'The sheets are sent on Friday.' | "$program" import faulty.home --site 1 > written
expect 0 "" merge faulty.home waits.feed
expect 0 "" renew home.feed faulty.home --site 1
[ "$(cat written)" = "ok renewed 30" ]
cp home.feed backup.feed
expect 0 "" replace home.feed --site 1 Friday Saturday
[ "$(cat written)" = "ok inserted 4 deleted 2" ]
expect 0 "" replace backup.feed --site 1 sheets 'last sheets'
[ "$(cat written)" = "ok inserted 5 deleted 0" ]
cp backup.feed before.feed
refused "copydesk: number used twice
backup.feed: site 1 made 31..35 here and there" merge home.feed backup.feed
expect 1 "copydesk: number in use" renumber backup.feed home.feed --site 1
[ ! -s written ]
cmp backup.feed before.feed
full renumber backup.feed home.feed --site 4
cmp backup.feed before.feed
expect 0 "" renumber backup.feed home.feed --site 4
[ "$(cat written)" = "ok renumbered 5" ]
expect 0 "" merge home.feed backup.feed
[ "$(cat written)" = "backup.feed ok new 5 known 30
faults none" ]
[ "$("$program" export home.feed)" = "The last sheets are sent on Saturday." ]
expect 0 "" merge backup.feed home.feed
cmp home.feed backup.feed
expect 0 "" renumber backup.feed home.feed --site 9
[ "$(cat written)" = "ok renumbered 0" ]
cmp home.feed backup.feed

# What then reads otherwise is told as `diff` tells it; what another room has seen keeps its number.
putting() { printf '01 %016x %04x %016x %04x 00 %08x ' "$1" "$2" "$3" "$4" "'$5"; }
begun="$(putting 1 1 0 0 a) $(putting 2 1 1 1 b)"
put "4d464431 $begun $(putting 3 1 1 1 y) $(putting 3 2 1 1 x)" > one.feed
put "4d464431 $begun $(putting 3 1 2 1 z)" > two.feed
[ "$("$program" export one.feed)" = axyb ]
cp one.feed seen.feed
expect 0 "" renumber one.feed two.feed --site 4
[ "$(cat written)" = "ok renumbered 1
- 0 axyb
+ 0 ayxb" ]
expect 0 "" merge one.feed two.feed
[ "$("$program" export one.feed)" = ayxbz ]
put "4d464431 $(putting 4 2 3 1 w)" > reply.feed
cp seen.feed one.feed
expect 0 "" merge seen.feed reply.feed
cp seen.feed before.feed
expect 1 "copydesk: seen by another room" renumber seen.feed two.feed --site 4
[ ! -s written ]
cmp seen.feed before.feed
put "4d464431 $(putting 5 2 4 1 w)" > reply.feed
expect 0 "" merge two.feed reply.feed
put "4d464431 $(putting 4 1 3 1 v)" > later.feed
expect 0 "" merge one.feed later.feed
cp one.feed before.feed
expect 1 "copydesk: seen by another room" renumber one.feed two.feed --site 4
expect 1 "copydesk: number in use" renumber one.feed two.feed --site 2
put "4d464431 02 0000000000000063 0009 0000000000000062 0006" > named.feed
for site in 6 9; do
  expect 1 "copydesk: number in use" renumber named.feed two.feed --site $site
  expect 1 "copydesk: number in use" renumber two.feed named.feed --site $site
done
put "4d464431 $(setting 5 1 60) $(setting 5 2 60)" > twice.feed
put "4d464431 $(setting 5 1 61) $(setting 5 2 61)" > other.feed
cp twice.feed kept.feed
expect 1 "copydesk: number in use" renumber twice.feed other.feed --site 4
[ ! -s written ]
cmp twice.feed kept.feed
expect 1 "copydesk: file fault
none.feed: it cannot be read" renumber one.feed none.feed --site 4
refused "copydesk: feed refused
bad.feed: byte 4: no such kind of operation" renumber one.feed bad.feed --site 4
refused "copydesk: feed refused
bad.feed: byte 4: no such kind of operation" renumber bad.feed one.feed --site 4
exec 3> one.feed.lock
flock 3
refused "copydesk: file fault
one.feed: another desk has it open" renumber one.feed two.feed --site 4
exec 3>&-
cmp one.feed before.feed
expect 0 "" renumber never.feed one.feed --site 4
[ "$(cat written)" = "ok renumbered 0" ]

# An import that would delete most of a copy, or all of it, is refused, but where it may delete everything.
many() { head -c "$2" /dev/zero | tr '\0' "$1"; }
"$program" export home.feed > before.txt
cp home.feed before.feed
refused "copydesk: 37 of 37 symbols would be deleted" import home.feed --site 1
printf '__' > given.txt
given=given.txt refused "copydesk: 37 of 37 symbols would be deleted" import home.feed --site 1
printf '__^^' > given.txt
given=given.txt refused "copydesk: 37 of 37 symbols would be deleted" import home.feed --site 1
got=0
cat nosuch.txt 2> none | "$program" import home.feed --site 1 > written 2> faults || got=$?
[ "$got" != 0 ]
[ ! -s written ]
[ "$(cat faults)" = "copydesk: 37 of 37 symbols would be deleted" ]
cmp home.feed before.feed
expect 0 "" import home.feed --site 1 --all
[ "$(cat written)" = "ok inserted 0 deleted 37" ]
expect 0 "" import home.feed --site 1
[ "$(cat written)" = "ok inserted 0 deleted 0" ]
"$program" import home.feed --site 1 < before.txt > written
[ "$(cat written)" = "ok inserted 37 deleted 0" ]
(many a 100; many b 100) | "$program" import many.feed --site 1 > written
cp many.feed before.feed
many a 99 > given.txt
given=given.txt refused "copydesk: 101 of 200 symbols would be deleted" import many.feed --site 1
(many a 99; many c 500) > given.txt
given=given.txt refused "copydesk: 101 of 200 symbols would be deleted" import many.feed --site 1 --plain
many c 200 > given.txt
given=given.txt refused "copydesk: 200 of 200 symbols would be deleted" import many.feed --site 1
cmp many.feed before.feed
full import many.feed --site 1 --all
cmp many.feed before.feed
"$program" import many.feed --site 1 --all < given.txt > written
[ "$(cat written)" = "ok inserted 200 deleted 200" ]
cp before.feed many.feed
many a 100 | "$program" import many.feed --site 1 --older > written
[ "$(cat written)" = "ok inserted 0 deleted 100" ]
cp before.feed many.feed
echo 'delete 1 0' | "$program" desk many.feed --site 1 --older > written
many c 1 | "$program" import many.feed --site 1 > written
[ "$(cat written)" = "ok inserted 1 deleted 199" ]
cp before.feed many.feed
echo 'insert 1 0 r"a"' | "$program" desk many.feed --site 1 --older > written
many a 100 > given.txt
given=given.txt refused "copydesk: 101 of 201 symbols would be deleted" import many.feed --site 1
many a 101 | "$program" import many.feed --site 1 > written
[ "$(cat written)" = "ok inserted 0 deleted 100" ]

# A sheet is carried out whole, or the first line that is refused stops it and nothing is stored.
cp c.feed before.feed
printf '# a note\n\ninsert 1 0 r"A "\ndelete 1 99999\nshow 1\n' > sheet
got=0
"$program" desk c.feed --site 1 --strict --number < sheet > written 2> faults || got=$?
[ "$got" = 1 ]
[ "$(cat faults)" = "copydesk: line 4 refused" ]
[[ "$(cat written)" == "3 ok "*"
4 refused place" ]]
cmp c.feed before.feed
got=0
"$program" script --strict < sheet > written 2> faults || got=$?
[ "$got" = 1 ]
[ "$(cat faults)" = "copydesk: line 3 refused" ]
[ "$(cat written)" = "refused site" ]
[ "$(printf 'site 1\nshow 2\n' | "$program" script --number)" = "1 ok
2 refused site" ]
printf '# a note\n\ninsert 1 0 r"A "\n' | "$program" desk c.feed --site 1 --strict > written
[[ "$(cat written)" == "ok "* ]]
[[ "$("$program" export c.feed)" == "A The last "* ]]
got=0
"$program" script --number < sheet 2> faults > /dev/full || got=$?
[ "$got" = 1 ]
[ "$(cat faults)" = "copydesk: write fault" ]
expect 1 "copydesk: file fault" desk none/c.feed --site 1 --strict
long=$(printf 'x%.0s' $(seq 300))
for words in --why "--why --strict" "--why --number"; do
  # shellcheck disable=SC2086
  expect 1 "copydesk: file fault
$long: " desk "$long" --site 1 $words
done
cp c.feed before.feed
# A folder can be opened, and not read: input that fails. A sheet has a limit, commands one by one have none.
for words in --why "--why --strict"; do
  got=0
  # shellcheck disable=SC2086
  "$program" desk c.feed --site 1 $words < . > written 2> faults || got=$?
  [ "$got" = 1 ]
  [ ! -s written ]
  [ "$(cat faults)" = "copydesk: read fault
standard input: it cannot be read" ]
done
got=0
head -c 67108865 /dev/zero | tr '\0' '#' | "$program" desk c.feed --site 1 --strict --why > written 2> faults || got=$?
[ "$got" = 1 ]
[ ! -s written ]
[ "$(cat faults)" = "copydesk: too long
standard input: it has more than 67108864 bytes" ]
got=0
head -c 8388609 /dev/zero | tr '\0' 'a' | "$program" import c.feed --site 1 > written 2> faults || got=$?
[ "$got" = 1 ]
[ ! -s written ]
[[ "$(cat faults)" = *"
standard input: it has more than 8388608 bytes" ]]
cmp c.feed before.feed
expect 2 error: script --strict now
expect 2 error: merge c.feed a.feed --strict

# A folder is no feed, output that is closed stores nothing, and while a desk has a feed nothing else takes it.
cp c.feed before.feed
mkdir folder.feed
for words in "export folder.feed" "merge c.feed folder.feed" "import folder.feed --site 1" "replace folder.feed --site 1 A B" \
  "renumber folder.feed c.feed --site 9" "renumber c.feed folder.feed --site 9" "renew never.feed folder.feed --site 9" \
  "desk folder.feed --site 1 --strict --why" "proof folder.feed ${metal[*]}" "punch folder.feed ${metal[*]} -o c.rib"; do
  # shellcheck disable=SC2086
  expect 1 "copydesk: file fault
folder.feed: it cannot be" $words
done
expect 1 "" check folder.feed
[ "$(cat written)" = "folder.feed file fault" ]
for words in "export c.feed" "merge c.feed b.feed" "import c.feed --site 1" "replace c.feed --site 1 sheets sheet" \
  "renumber c.feed b.feed --site 99" "desk c.feed --site 1 --strict"; do
  got=0
  # shellcheck disable=SC2086
  printf 'insert 1 0 r"A"\n' | "$program" $words 2> faults > /dev/full || got=$?
  told="copydesk: write fault"
  [[ "$words" == desk* ]] || told+=$'\nstandard output: it cannot be written'
  if [ "$got" != 1 ] || [ "$(cat faults)" != "$told" ]; then
    echo "copydesk $words with a full output: status $got, $(head -c 200 faults)" >&2
    exit 1
  fi
done
cmp c.feed before.feed
mkfifo keyed
"$program" desk c.feed --site 1 < keyed > answered &
exec 3> keyed
# It holds the feed once it has answered. (A look at the lock would take it for a moment, and end the desk.)
echo 'show 1' >&3
for _ in $(seq 1200); do [ ! -s answered ] || break; sleep 0.05; done
[ -s answered ]
for words in "merge c.feed b.feed" "import c.feed --site 1" "replace c.feed --site 1 sheets sheet" "renumber c.feed b.feed --site 99" \
  "desk c.feed --site 1 --strict"; do
  # shellcheck disable=SC2086
  expect 1 "copydesk: file fault" $words
done
expect 0 "" export c.feed
expect 0 "" renew fresh.feed c.feed --site 99
exec 3>&-
wait
cmp c.feed before.feed

# Names and words are written out: none of their characters commands a terminal or turns a line round. An export has them.
mark=$'\xe2\x80\xae'
odd=$'\e[31m'"$mark"$'\n.feed'
printf 'no%sn' "$mark" | "$program" import "$odd" --site 7 > written
printf 'on' | "$program" import plain.feed --site 8 > written
"$program" merge odd.feed "$odd" > written
[ "$(cat written)" = '\x1b[31m<U+202E>\x0a.feed ok new 4 known 0
faults none' ]
[ "$("$program" export "$odd")" = "no${mark}n" ]
got=0
"$program" diff "$odd" plain.feed > written || got=$?
[ "$got" = 1 ]
[ "$(head -n 4 written)" = '\x1b[31m<U+202E>\x0a.feed alone 7: 1..4
plain.feed alone 8: 1..2
- 0 no<U+202E>n
+ 0 on' ]
"$program" check "$odd" > written
[ "$(cat written)" = '\x1b[31m<U+202E>\x0a.feed ok: 4 operations, 4 symbols shown, faults none' ]
got=0
"$program" replace "$odd" --site 7 n m > written || got=$?
[ "$got" = 1 ]
[ "$(cat written)" = 'place 0: no<U+202E>n
place 3: no<U+202E>n' ]

# A terminal obeys nothing in a name, and no name turns a line round.
expect 1 'copydesk: file fault
no\x1b[31m.feed: it cannot be read' export $'no\e[31m.feed'
expect 1 'copydesk: file fault
no<U+202E>\x0a.feed: it cannot be read' diff $'no\xe2\x80\xae\n.feed' a.feed
expect 1 'copydesk: input refused
c<U+2066>.toml: it cannot be read' proof c.feed --case $'c\xe2\x81\xa6.toml' --wedge wedge5.toml
expect 1 'copydesk: input refused
--set loose\x9b=1: no setting' proof c.feed "${metal[@]}" --set $'loose\xc2\x9b=1'
expect 2 "error: unrecognized subcommand 'x<U+202E>'" $'x\xe2\x80\xae'
expect 2 "error: unexpected argument '--x\\x1b' found" export c.feed $'--x\e'

# A reader that has seen enough of a report hears nothing of the rest, and a picture is stored all the same. A command that
# would have stored something still says that it did not.
many 'a' 200000 | fold -w 9 | tr '\n' ' ' | "$program" import wide.feed --site 1 --all > /dev/null
printf 'set 1 measure 150\nset 1 tight 40\nset 1 loose 200\nset 1 case 12\nset 1 wedge 5\n' | "$program" desk wide.feed --site 1 > /dev/null
("$program" export wide.feed 2> faults || true) | head -c 100000 | "$program" import narrow.feed --site 2 --all > /dev/null
cp wide.feed before.feed
closed() {
  local told=$1 got
  shift
  got=$(set +e; (sleep 0.2; "$program" "$@" < "${given:-/dev/null}" 2> faults; echo $? > status) | head -c "$read" > /dev/null; cat status)
  if [ "$got" != 1 ] || [ "$(cat faults)" != "$told" ]; then
    echo "copydesk $* | head: status $got, $(head -c 200 faults)" >&2
    exit 1
  fi
}
for read in 1 0; do
  closed "" export wide.feed
  closed "" diff wide.feed narrow.feed
  closed "" proof wide.feed "${metal[@]}"
done
closed "" sorts wide.feed --case case12.toml
closed "" check wide.feed
closed "" proof wide.feed "${metal[@]}" --svg wide.svg
[[ "$(head -c 5 wide.svg)" = "<svg " ]]
[ "$(tail -c 7 wide.svg)" = "</svg>" ]
"$program" punch wide.feed "${metal[@]}" -o wide.rib
closed "" read wide.rib "${metal[@]}" --svg holes.svg --force
[ "$(tail -c 7 holes.svg)" = "</svg>" ]
rm wide.svg
closed "copydesk: file fault
wide.feed: the picture would take its place" proof wide.feed "${metal[@]}" --svg wide.feed
closed "copydesk: write fault
standard output: it cannot be written" merge wide.feed narrow.feed
closed "copydesk: write fault
standard output: it cannot be written" import wide.feed --site 1 --all
echo 'site 1' > given.txt
given=given.txt closed "copydesk: write fault" script --number
given=given.txt closed "copydesk: write fault" desk wide.feed --site 1
cmp wide.feed before.feed

# A feed as it was, who made it, and where a text is.
printf 'Send word.' | "$program" import past.feed --site 1 > /dev/null
printf 'Send word by noon.' | "$program" import past.feed --site 2 > /dev/null
[ "$("$program" export past.feed --at 10)" = "Send word." ]
[ "$("$program" export past.feed --at 0)" = "" ]
[ "$("$program" export past.feed --at 18446744073709551615)" = "Send word by noon." ]
expect 2 error: export past.feed --at
expect 2 error: export past.feed --at now
expect 2 error: export past.feed --at -1
expect 2 error: export past.feed --at 18446744073709551616
expect 1 "" diff past.feed --at 10
[ "$(cat written)" = "past.feed alone none
past.feed alone 2: 11..18
- 5 word.
+ 5 word by noon." ]
expect 0 "" diff past.feed --at 18
expect 2 "error: these words do not go together" diff past.feed
expect 2 "error: these words do not go together" find past.feed word --case case12.toml
expect 2 "error: these words do not go together" find past.feed word --wedge wedge5.toml
expect 2 "error: these words do not go together" replace past.feed --site 1 word words --at 5 --all
expect 2 error: log past.feed --site 0
expect 2 error: log past.feed --since x
[ "$("$program" rooms past.feed)" = "site 1 from 1.1 to 10.1: inserts 10, deletes 0, sets 0, shown 10, faults 0
site 2 from 11.2 to 18.2: inserts 8, deletes 0, sets 0, shown 8, faults 0
copy: inserts 18, deletes 0, sets 0, shown 18, faults 0" ]
[ "$("$program" log past.feed)" = '1.1..10.1 at 0 + "Send word."
11.2..18.2 at 9 + " by noon"' ]
[ "$("$program" log past.feed noon)" = '11.2..18.2 at 9 + " by noon"' ]
[ "$("$program" log past.feed --site 1 noon)" = "" ]
[ "$("$program" log past.feed --since 11)" = "$("$program" log past.feed --site 2)" ]
[ "$("$program" find past.feed o)" = "place 6: Send word by noon.
place 14: Send word by noon.
place 15: Send word by noon." ]
expect 1 "" find past.feed moon
[ "$(cat written)" = "no place" ]
refused "copydesk: TEXT, line 1, column 3: a style that is open at the end of the line" find past.feed _o
refused "copydesk: TEXT, line 1, column 3: a style that is open at the end of the line" log past.feed _o
expect 1 "" find past.feed _o --plain
for command in "export" "rooms" "log" "find" "diff"; do
  more=$([ "$command" = find ] && echo x || [ "$command" != diff ] || echo past.feed)
  expect 1 "copydesk: file fault
none.feed: it cannot be read" "$command" none.feed $more
done
expect 1 "copydesk: 3 places" replace past.feed --site 1 o 0 --at 5
expect 1 "copydesk: 1 place" replace past.feed --site 1 Send Sent --at 5
[ "$(cat faults)" = "copydesk: 1 place" ]
[ "$("$program" replace past.feed --site 1 o 0 --at 14)" = "ok inserted 1 deleted 1" ]
[ "$("$program" replace past.feed --site 1 o 0 --all)" = "ok inserted 2 deleted 2" ]
[ "$("$program" export past.feed)" = "Send w0rd by n00n." ]
cp past.feed past.before
"$program" rooms past.feed > /dev/null
"$program" log past.feed > /dev/null
cmp past.feed past.before

# Help names the program, the words and every command.
[ "$("$program" --version)" = "copydesk 0.2.0" ]
told=$("$program" --help)
for command in script desk merge diff export import replace rooms log find check proof punch read sorts renew renumber; do
  if [[ "$told" != *"copydesk $command"* ]] || [[ "$("$program" "$command" --help)" != *"As in: copydesk $command "*"Status: 0"* && $command != script ]]; then
    echo "the help does not name $command" >&2
    exit 1
  fi
done
told=$("$program" desk --help)
[[ "$told" == *"copydesk desk one.feed --site 1 < commands"*"FEED.lock"* ]]
told=$("$program" script --help)
for command in site insert delete set send take merge restart show faults settings feed ribbon cast; do
  if [[ "$told" != *" $command "* ]]; then
    echo "the help of script does not name $command" >&2
    exit 1
  fi
done
# The file of a room gives what is not typed. What is typed goes before it, and where nothing is wanted it is not read.
mkdir room
cd room
cp ../case12.toml ../wedge5.toml .
room() { printf '%s\n' "$@" > copydesk.toml; }
room 'site = 3' 'case = "case12.toml"' 'wedge = "wedge5.toml"' '[set]' 'measure = 150' 'loose = 150'
expect 0 "" check copydesk.toml
[ "$(cat written)" = "copydesk.toml ok: room file, site 3, case case12.toml, wedge wedge5.toml, set measure=150, set loose=150" ]
printf 'The sheets.' > text
given=text
"$program" import a.feed < text > written
[ "$(cat written)" = "ok inserted 11 deleted 0" ]
[ "$("$program" rooms a.feed | head -c 8)" = "site 3 f" ]
"$program" replace a.feed sheets galleys > written
"$program" replace a.feed --site=4 galleys sheets > written
[ "$("$program" rooms a.feed | grep -c '^site 4 ')" = 1 ]
"$program" renew b.feed a.feed > written
[ "$("$program" rooms b.feed | head -c 8)" = "site 3 f" ]
expect 2 error: renumber a.feed b.feed
expect 2 error: find a.feed sheets --case case12.toml
expect 0 "" find a.feed sheets
[ "$("$program" log a.feed | grep -c .)" = 2 ]
printf 'set 3 tight 40\nset 3 case 12\nset 3 wedge 5\n' | "$program" desk a.feed > written
"$program" proof a.feed > written
grep -q 'measure 150 points, tight 40, loose 150' written
"$program" proof a.feed --set measure=72 --set tight=50 > written || true
grep -q 'measure 72 points, tight 50, loose 150' written
expect 1 "copydesk: no ribbon
b.feed: its job has faults" punch b.feed -o b.rib
printf 'set 3 measure 150\nset 3 loose 150\n' | "$program" desk a.feed > written
expect 0 "" punch a.feed -o a.rib
expect 0 "" read a.rib
expect 0 "" sorts a.feed
for line in 'site = 0' 'sit = 3' 'case = ""' 'wedge = 5' 'set = 1' 'set.loose = 241' 'set.measures = 60' 'site ='; do
  room '# the file of this room' "$line"
  why="\`${line%% *}\` is of another type or value"
  case $line in
    sit* | *measures*) [ "$line" = 'site = 0' ] || why="\`${line%% *}\` is no key of it" ;;
  esac
  [ "$line" != 'site =' ] || why="it is not TOML"
  refused "copydesk: input refused
copydesk.toml: line 2: $why" proof a.feed
  expect 1 "" check copydesk.toml
  expect 0 "" export a.feed
  expect 0 "" desk a.feed --site 3
  expect 0 "" proof --help
done
rm copydesk.toml
expect 2 error: desk a.feed
mkdir copydesk.toml
refused "copydesk: file fault
copydesk.toml: it cannot be read: Is a directory (os error 21)" desk a.feed
cd ..
unset given

# shellcheck source=tests/words_texts.sh
. "$texts"

# shellcheck source=tests/words_pages.sh
. "$pages"

echo "words: as they must be"
