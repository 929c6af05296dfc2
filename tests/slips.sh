#!/usr/bin/env bash
# What two rooms do to one word, and feeds that are older than what was made of them, of the program as built: slips.sh [PROGRAM].
# A merge names the words that came out otherwise than a careful person would merge them; a feed that was restored from a backup
# is refused by a room that has gone further with it.
set -euo pipefail
program=$(realpath "${1:-$(dirname "$0")/../crates/copydesk/out/copydesk}")
folder=$(mktemp -d)
trap 'rm -rf "$folder"' EXIT
trap 'echo "slips: line $LINENO is not as it must be" >&2' ERR
cd "$folder"
: > nothing

fail() {
  echo "slips: $*" >&2
  exit 1
}

# A run of these words: its status, all that it writes, and all that it says on standard error. It reads the file `given`.
given=nothing
run() {
  local status=$1 wrote=$2 told=$3 got=0
  shift 3
  "$program" "$@" < "$given" > written 2> faults || got=$?
  [ "$got" = "$status" ] || fail "copydesk $*: status $got, $(head -c 300 faults)"
  [ "$(cat written)" = "$wrote" ] || fail "copydesk $* wrote $(head -c 600 written)"
  [ "$(cat faults)" = "$told" ] || fail "copydesk $* said $(head -c 300 faults)"
}

# Status 2, and the words are refused.
misused() {
  local got=0
  "$program" "$@" < nothing > written 2> faults || got=$?
  [ "$got" = 2 ] && [[ "$(cat faults)" == error:* ]] && [ ! -s written ] || fail "copydesk $*: status $got, $(head -c 300 faults)"
}

# A text of site 9 in the feeds of two rooms, one and two.
begin() {
  rm -f one.feed* two.feed*
  printf '%s' "$1" > given.txt
  "$program" import one.feed --site 9 < given.txt > written
  cp one.feed two.feed
}

# A merge that looks for open readings: status 1 where there are some. A line on standard error may say so.
review() {
  local status=$1 wrote=$2 got=0
  shift 2
  "$program" merge --review "$@" < nothing > written 2> faults || got=$?
  [ "$got" = "$status" ] || fail "merge --review $*: status $got, $(head -c 300 faults)"
  [ "$(cat written)" = "$wrote" ] || fail "merge --review $* wrote $(head -c 600 written)"
  [ ! -s faults ] || [ "$status $(cat faults)" = "1 copydesk: open readings" ] || fail "merge --review $* said $(head -c 300 faults)"
}

# Two rooms mend two slips alike: each mending is there twice, and both are named, in each room.
begin 'Teh sheets are in the galleys agian. The end.'
for site in 1 2; do
  feed=$([ $site = 1 ] && echo one || echo two).feed
  run 0 "ok inserted 1 deleted 1" "" replace $feed --site $site agian again
  run 0 "ok inserted 1 deleted 1" "" replace $feed --site $site Teh The
done
thee="open at 0
  now   Thee
  here  The
  there The
  was   Teh
open at 31
  now   agaiin.
  here  again.
  there again.
  was   agian."
run 1 "one.feed alone 1: 46..49
two.feed alone 2: 46..49
$thee" "" diff one.feed two.feed
run 1 "two.feed alone 2: 46..49
one.feed alone 1: 46..49
$thee" "" diff two.feed one.feed
cp one.feed before.feed
review 1 "two.feed ok new 4 known 45
$thee
faults none" one.feed two.feed
run 0 "Thee sheets are in the galleys agaiin. The end." "" export one.feed
run 0 "before.feed ok new 4 known 45
$thee
one.feed ok new 0 known 53
faults none" "" merge two.feed before.feed one.feed
cmp one.feed two.feed
# What is settled is named no more, nor is it in a room that takes it.
run 0 "ok inserted 0 deleted 1" "" replace one.feed --site 1 agaiin again
run 0 "ok inserted 0 deleted 1" "" replace one.feed --site 1 Thee The
review 0 "one.feed ok new 2 known 53
faults none" two.feed one.feed
run 0 "The sheets are in the galleys again. The end." "" export two.feed
review 0 "two.feed ok new 0 known 55
faults none" one.feed two.feed

# One day becomes two.
begin 'The sheets are sent on Friday.'
run 0 "ok inserted 3 deleted 3" "" replace one.feed --site 1 Friday Monday
run 0 "ok inserted 4 deleted 3" "" replace two.feed --site 2 Friday Tuesday
run 0 "two.feed ok new 7 known 30
open at 23
  now   TuesMonday.
  here  Monday.
  there Tuesday.
  was   Friday.
faults none" "" merge one.feed two.feed
run 0 "The sheets are sent on TuesMonday." "" export one.feed

# Two equal exchanges of more words than one. The space that was there stands before `to` now, and parts two open pieces.
begin 'Reach us at noon.'
for feed in one two; do
  run 0 "ok inserted 6 deleted 4" "" replace $feed.feed --site $([ $feed = one ] && echo 1 || echo 2) 'Reach us' 'come to us'
done
review 1 "two.feed ok new 10 known 17
open at 0
  now   comeome to to us
  here  come to us
  there come to us
  was   Reach us
faults none" one.feed two.feed

# Different words of one line open nothing, neighbours too; nor does a feed that holds the other, or is missing.
begin 'The last sheets are in the galleys.'
run 0 "ok inserted 5 deleted 3" "" replace one.feed --site 1 last second
run 0 "ok inserted 4 deleted 5" "" replace two.feed --site 2 sheets forme
cp one.feed before.feed
review 0 "two.feed ok new 9 known 35
faults none" one.feed two.feed
run 0 "The second forme are in the galleys." "" export one.feed
review 0 "one.feed ok new 8 known 44
faults none" two.feed one.feed
review 0 "one.feed ok new 52 known 0
faults none" none.feed one.feed
run 1 "before.feed alone none
one.feed alone 2: 36..44
- 11 sheets
+ 11 forme" "" diff before.feed one.feed

# One room takes out a line, and the other mends a word of it: what is left of the mending is named.
begin 'The first line.
The secnd line.
The third line.'
run 0 "ok inserted 1 deleted 0" "" replace two.feed --site 2 secnd second
printf 'The first line.\nThe third line.' > given.txt
given=given.txt run 0 "ok inserted 0 deleted 16" "" import one.feed --site 1
"$program" merge one.feed two.feed > written
grep -q '^open at [0-9]*$' written || fail "a mending of a line that is gone is not named"
grep -q '^  was  .*secnd' written || fail "a line that is gone is not shown as it was"

# Long words are shown around what differs, and the end of a line as a space; three rooms are joined one after the other.
begin 'Behold: theunabridgedwordthathasnoend here'
cp one.feed three.feed
run 0 "ok inserted 1 deleted 0" "" replace one.feed --site 1 unabridged unabbridged
run 0 "ok inserted 1 deleted 0" "" replace two.feed --site 2 unabridged unabridgged
run 0 "ok inserted 1 deleted 0" "" replace three.feed --site 3 noend nooend
run 0 "two.feed ok new 1 known 42
open at 8
  now   theunabbridggedwordthath..
  here  theunabbridgedwordthatha..
  there theunabridggedwordthatha..
  was   theunabridgedwordthathas..
three.feed ok new 1 known 42
open at 8
  now   theunabbridggedwordthath..
  here  theunabbridggedwordthath..
  there theunabridgedwordthathas..
  was   theunabridgedwordthathas..
faults none" "" merge one.feed two.feed three.feed

# A number used twice, where forks are asked for: what they hide is named, and what is left of the longer change.
begin 'The sheets are sent on Friday.'
run 0 "ok inserted 4 deleted 2" "" replace one.feed --site 1 Friday Saturday
run 0 "ok inserted 5 deleted 0" "" replace two.feed --site 1 sheets 'last sheets'
review 1 "two.feed ok new 5 known 30
open at 4
  now   sheets
  here  sheets
  there last sheets
  was   sheets
open at 23
  now   Frday.
  here  Saturday.
  there Friday.
  was   Friday.
faults forked 31.1, forked 32.1, forked 33.1, forked 34.1, forked 35.1" --forks one.feed two.feed
run 0 "The sheets are sent on Frday." "" export one.feed

# What is renumbered goes on under its new number: under the old one the room has gone further than the feed now holds.
begin 'The sheets are sent on Friday.'
run 0 "ok inserted 1 deleted 1" "" replace one.feed --site 1 sheets sheetz
run 0 "ok inserted 15 deleted 2" "" replace two.feed --site 1 Friday 'Saturday and Sunday'
run 0 "ok renumbered 17" "" renumber two.feed one.feed --site 4
run 0 "one.feed ok new 2 known 30
faults none" "" merge two.feed one.feed
run 1 "" "copydesk: older feed
two.feed: site 1 made 47 here, and it holds 32" replace two.feed --site 1 The A
run 0 "ok inserted 1 deleted 3" "" replace two.feed --site 4 The A
printf 'site 1 47\nsite 4 51\n' | cmp - two.feed.last

# Words that no merge understands.
misused merge one.feed two.feed --older
misused diff one.feed two.feed --review
misused desk one.feed --site 1 --review
misused script --older

# A backup is restored after the room went on: every command that goes on under the number refuses it, and leaves all as it was.
rm -f -- *.feed *.feed.*
printf 'The sheets are sent on Friday.' > given.txt
given=given.txt run 0 "ok inserted 30 deleted 0" "" import home.feed --site 1
[ "$(cat home.feed.last)" = "site 1 30" ] || fail "home.feed.last after an import: $(cat home.feed.last)"
cp home.feed backup.feed
echo 'insert 1 0 r"A "' > sheet
echo 'insert 3 0 r"A "' > sheet3
echo 'insert 7 0 r"A "' > sheet7
given=sheet run 0 "ok 31.1..32.1" "" desk home.feed --site 1
[ "$(cat home.feed.last)" = "site 1 32" ] || fail "home.feed.last after a desk: $(cat home.feed.last)"
run 0 "ok inserted 0 deleted 2" "" replace home.feed --site 1 'A The' The
[ "$(cat home.feed.last)" = "site 1 34" ] || fail "home.feed.last after a replacement: $(cat home.feed.last)"
given=sheet7 run 0 "ok 35.7..36.7" "" desk home.feed --site 7 --strict
printf 'site 1 34\nsite 7 36\n' | cmp - home.feed.last
cp home.feed newest.feed
cp backup.feed home.feed
cp home.feed.last before.last
older="copydesk: older feed
home.feed: site 1 made 34 here, and it holds 30"
same() {
  cmp home.feed backup.feed || fail "a refused run has changed the feed"
  cmp home.feed.last before.last || fail "a refused run has changed what it is compared with"
  [ ! -e home.feed.new ] && [ ! -e home.feed.last.new ] || fail "a refused run has left something behind"
}
for words in "" --strict --why --number "--strict --number --why"; do
  # shellcheck disable=SC2086
  given=sheet run 1 "" "$older" desk home.feed --site 1 $words
  same
done
given=given.txt run 1 "" "$older" import home.feed --site 1
same
given=nothing run 1 "" "$older" import home.feed --site 1 --all
same
run 1 "" "$older" replace home.feed --site 1 Friday Saturday
same
run 1 "" "$older" replace home.feed --site 1 nowhere Saturday
same
run 1 "" "copydesk: older feed
home.feed: site 7 made 36 here, and it holds 0" import home.feed --site 7
same
# Nothing is read of the input.
exec 4< sheet
got=0
"$program" desk home.feed --site 1 <&4 > written 2> faults || got=$?
[ "$got" = 1 ] && [ "$(cat <&4)" = 'insert 1 0 r"A "' ] || fail "a refused desk has read its input"
exec 4<&-
exec 4< given.txt
"$program" import home.feed --site 1 <&4 > written 2> faults || got=$?
[ "$(cat <&4)" = "The sheets are sent on Friday." ] || fail "a refused import has read its input"
exec 4<&-
# A text that is refused comes first where it is given by words; a feed that is refused, or that another run has, comes first always.
printf '\t' > tab
run 1 "" "copydesk: OLD, line 1, column 1: no symbol of a copy" replace home.feed --site 1 $'\t' x
given=tab run 1 "" "$older" import home.feed --site 1
exec 3> home.feed.lock
flock 3
run 1 "" "copydesk: file fault
home.feed: another desk has it open" import home.feed --site 1
exec 3>&-
printf 'MFD2\x09' > home.feed
run 1 "" "copydesk: feed refused
home.feed: byte 4: no such kind of operation" import home.feed --site 1
cp backup.feed home.feed
same
# What does not go on under a number takes an older feed as any other; so does another number.
run 0 "The sheets are sent on Friday." "" export home.feed
run 0 "backup.feed ok new 0 known 30
faults none" "" merge home.feed backup.feed
same
given=sheet3 run 0 "ok 31.3..32.3" "" desk home.feed --site 3
printf 'site 1 34\nsite 3 32\nsite 7 36\n' | cmp - home.feed.last
# A merge of what the room had brings it up again.
"$program" merge home.feed newest.feed > written
run 0 "ok inserted 2 deleted 0" "" replace home.feed --site 1 Friday 'Friday, '
printf 'site 1 38\nsite 3 32\nsite 7 36\n' | cmp - home.feed.last

# With --older it goes on, and the lesser counter is the one that counts from then on.
for words in "desk home.feed --site 1 --older" "desk home.feed --site 1 --older --strict" "desk --older home.feed --site 1 --why"; do
  cp backup.feed home.feed
  cp before.last home.feed.last
  # shellcheck disable=SC2086
  given=sheet run 0 "ok 31.1..32.1" "" $words
  printf 'site 1 32\nsite 7 36\n' | cmp - home.feed.last
  given=nothing run 0 "" "" desk home.feed --site 1
done
cp backup.feed home.feed
cp before.last home.feed.last
given=given.txt run 0 "ok inserted 0 deleted 0" "" import home.feed --site 1 --older
cmp home.feed backup.feed
printf 'site 1 30\nsite 7 36\n' | cmp - home.feed.last
cp before.last home.feed.last
run 0 "ok inserted 1 deleted 0" "" replace home.feed --site 1 --older Friday Fridays
printf 'site 1 31\nsite 7 36\n' | cmp - home.feed.last
run 0 "ok inserted 0 deleted 1" "" replace home.feed --site 1 Fridays Friday
# It is a word like any other where a text is given.
run 0 "ok inserted 6 deleted 5" "" replace home.feed --site 1 -- Friday --older
run 0 "The sheets are sent on --older." "" export home.feed

# A run that stores nothing notes nothing.
cp home.feed.last before.last
printf 'insert 1 0 r"A "\ndelete 1 9999\n' > refused
given=refused run 1 "ok 44.1..45.1
refused place" "copydesk: line 2 refused" desk home.feed --site 1 --strict
run 1 "no place" "copydesk: no place" replace home.feed --site 1 nowhere x
run 1 "" "copydesk: 31 of 31 symbols would be deleted" import home.feed --site 1
got=0
"$program" import home.feed --site 1 < given.txt 2> faults > /dev/full || got=$?
[ "$got" = 1 ] || fail "an import with a full output ends with $got"
cmp home.feed.last before.last || fail "a run that stored nothing has changed what the next is compared with"
[ ! -e home.feed.last.new ]

# What is no such text guards nothing, and is replaced; nor does a file that is not there, or that cannot be read.
for garbled in '' 'x' 'site 1 99' 'site 1 99\n\n' 'site 01 99\n' 'site 1 099\n' 'site 2 9\nsite 1 99\n' 'site 1 99\nsite 1 98\n' 'site 1 99\r\n' 'Site 1 99\n' 'site 65536 1\n' \
  'site 1 18446744073709551616\n' 'site 1 99\nMFD2' 'site  1 99\n' ' site 1 99\n' '\0site 1 99\n'; do
  cp backup.feed home.feed
  # shellcheck disable=SC2059
  printf "$garbled" > home.feed.last
  given=sheet run 0 "ok 31.1..32.1" "" desk home.feed --site 1
  [ "$(cat home.feed.last)" = "site 1 32" ] || fail "'$garbled' has become $(cat home.feed.last)"
done
for lines in 'site 1 18446744073709551615\n' 'site 0 4\nsite 1 31\n' 'site 1 31\nsite 65535 0\n'; do
  cp backup.feed home.feed
  # shellcheck disable=SC2059
  printf "$lines" > home.feed.last
  made=$(awk '$2 == 1 { print $3 }' home.feed.last)
  given=sheet run 1 "" "copydesk: older feed
home.feed: site 1 made $made here, and it holds 30" desk home.feed --site 1
done
rm home.feed.last
mkdir home.feed.last
given=sheet run 0 "ok 31.1..32.1" "" desk home.feed --site 1
[ -d home.feed.last ] || fail "a folder has gone"
rmdir home.feed.last
if [ "$(id -u)" != 0 ]; then
  cp backup.feed home.feed
  echo 'site 1 99' > home.feed.last
  chmod 000 home.feed.last
  given=sheet run 0 "ok 31.1..32.1" "" desk home.feed --site 1
  rm -f home.feed.last
fi
cp backup.feed home.feed
rm -f home.feed.last
truncate -s 67108865 home.feed.last
given=sheet run 0 "ok 31.1..32.1" "" desk home.feed --site 1
rm home.feed.last
# A feed that is not there is guarded by nothing: the room begins anew.
printf 'site 1 34\nsite 7 36\n' > fresh.feed.last
given=given.txt run 0 "ok inserted 30 deleted 0" "" import fresh.feed --site 1
printf 'site 1 30\nsite 7 36\n' | cmp - fresh.feed.last
rm fresh.feed
given=nothing run 0 "" "" desk fresh.feed --site 1
printf 'site 1 0\nsite 7 36\n' | cmp - fresh.feed.last
# An empty file is no feed, and a feed of nothing is there.
printf 'MFD2' > fresh.feed
echo 'site 1 34' > fresh.feed.last
run 1 "" "copydesk: older feed
fresh.feed: site 1 made 34 here, and it holds 0" import fresh.feed --site 1
# The second line names the feed as it was named.
mkdir room
cp backup.feed room/home.feed
echo 'site 1 34' > room/home.feed.last
run 1 "" "copydesk: older feed
./room/../room/home.feed: site 1 made 34 here, and it holds 30" import ./room/../room/home.feed --site 1
echo "slips: as they must be"
