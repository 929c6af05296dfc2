#!/usr/bin/env bash
# Feeds through git, of the program as built: git.sh [PROGRAM]. Three clones of one repository correct one copy and are merged in
# two orders: each merge goes through `copydesk merge`, none conflicts, and all end with the same feed, in which no correction is
# lost. `git diff` shows the copies as text. Three clones that correct one word conflict, with the merged copy in place. An older
# feed that git brings is refused by the next import. Two clones that correct under one number conflict, until one is renumbered.
set -euo pipefail
program=$(realpath "${1:-$(dirname "$0")/../crates/copydesk/out/copydesk}")
guide=$(realpath "$(dirname "$0")/../docs/GUIDE.md")
folder=$(mktemp -d)
trap 'rm -rf "$folder"' EXIT
cd "$folder"
export HOME=$folder GIT_CONFIG_NOSYSTEM=1
mkdir bin
ln -s "$program" bin/copydesk
export PATH=$folder/bin:$PATH
git config --global user.name "A keyboard room"
git config --global user.email room@example.org
git config --global init.defaultBranch main
git config --global pull.rebase false

fail() {
  echo "git: $*" >&2
  exit 1
}

# The guide's lines for a clone, in the clone that one stands in.
lines=$(sed -n '/^## Rooms that exchange feeds by git$/,/^## Faults/{/^```sh$/,/^```$/{/^```/!p}}' "$guide")
[[ $(grep -c . <<< "$lines") -eq 3 ]] || fail "the guide has no three lines for a clone"
[[ "$lines" == *"'copydesk merge --review %A %B >&2; made=\$?; rm -f %A.lock; exit \$made'"* ]] || fail "the guide has another line for the merges"
[[ "$lines" == *'*.last'* ]] || fail "the guide lets git keep how far the sites of a room have come"

# A pull, without what the merge has said.
pull() { git pull -q --no-edit "$@" > ../said 2> ../told; }

# The licence of the test: a text of many lines.
text() {
  for line in $(seq 1 400); do
    echo "Line $line of a licence, keyed in at one room and corrected in three."
  done
}

git init -q --bare server.git
git clone -q server.git one 2> /dev/null
cd one
eval "$lines"
text | copydesk import copy.feed --site 1 > /dev/null
git add .gitattributes .gitignore copy.feed
git commit -qm "The copy as keyed"
git push -q origin main
cd ..
git clone -q server.git two && (cd two && eval "$lines")
git clone -q server.git three && (cd three && eval "$lines")

# Each room corrects the text in an editor, at other places.
correct() {
  (cd "$1" && copydesk export copy.feed | sed "$3" | copydesk import copy.feed --site "$2" > answer && git commit -qam "Corrections of room $2")
}
correct one 1 '3s/keyed in/typed/; 200s/licence/permit/'
correct two 2 '90s/three/four/; 200s/three/four/'
correct three 3 '399s/Line/The line/; 10d'
shown=$(cd one && git diff HEAD~1 -- copy.feed)
[[ "$shown" == *"-Line 3 of a licence, keyed in at one room"*"+Line 3 of a licence, typed at one room"* ]] || fail "git diff does not show the copies"

# Rooms pull from one another in different orders; the server takes what the first has.
(cd one && git push -q origin main)
(cd two && pull origin main && git push -q origin main)
(cd three && pull origin main && git push -q origin main)
(cd one && pull ../three main)
(cd two && pull ../one main)
cmp one/copy.feed two/copy.feed || fail "two feeds differ"
cmp one/copy.feed three/copy.feed || fail "two feeds differ"

# The same corrections, merged in another order, by branches of one clone.
git clone -q server.git order
cd order
eval "$lines"
first=$(git rev-list --max-parents=0 HEAD)
for room in 1 2 3; do
  git branch "room$room" "$(git log --format=%H --grep="Corrections of room $room")"
done
git checkout -q -b other "$first"
git merge -q --no-edit room3 > ../said 2> ../told
git merge -q --no-edit room1 > ../said 2> ../told
git merge -q --no-edit room2 > ../said 2> ../told
cmp copy.feed ../one/copy.feed || fail "another order gives another feed"
cd ..

# No correction is lost.
copydesk export one/copy.feed > merged
for words in "typed at one room" "corrected in four." "The line 399 of"; do
  grep -q "$words" merged || fail "a correction is lost: $words"
done
[ "$(grep -c "^Line 10 of" merged)" = 0 ] || fail "a deleted line is there"
[ "$(cd one && git status --porcelain)" = "?? answer" ] || fail "a merge left something behind"
[ -e one/copy.feed.last ] || fail "nothing says how far the first room has come"

# Three clones correct one word: each pull that brings another reading of it is a conflict, with the merged copy in place.
correct one 1 '/^Line 50 /s/licence/permit/; /^Line 60 /s/keyed in/typed/'
correct two 2 '/^Line 50 /s/licence/grant/'
correct three 3 '/^Line 50 /s/licence/charter/; /^Line 70 /s/keyed in/typed/'
opens() {
  local got=0
  git pull -q --no-edit "$1" main > ../said 2> ../told || got=$?
  [ "$got" != 0 ] || fail "a pull says nothing of a word that two rooms have corrected"
  grep -q '^open at [0-9]*$' ../told || fail "a pull hides a word that two rooms have corrected: $(head -c 300 ../told)"
  [ "$(git status --porcelain copy.feed)" = "UU copy.feed" ] || fail "a word that two rooms have corrected is no conflict"
  [ -z "$(find . -name '.merge_file_*')" ] || fail "a pull with a conflict has left something behind"
}
line() { copydesk export copy.feed | sed -n "/^Line $1 /p"; }
cd one
opens ../two
grep -q '^  here  permit,$' ../told && grep -q '^  there grant,$' ../told && grep -q '^  was   licence,$' ../told || fail "a pull shows other readings: $(cat ../told)"
git show MERGE_HEAD:copy.feed > theirs.feed
git show HEAD:copy.feed > ours.feed
copydesk merge ours.feed theirs.feed > ../said
cmp ours.feed copy.feed || fail "the merged copy is not in place"
rm ours.feed* theirs.feed
git add copy.feed
git commit -qm "Both corrections, to be looked at"
cd ../three
opens ../one
word=$(line 50 | sed 's/Line 50 of a \(.*\), keyed .*/\1/')
[ "${#word}" -gt 7 ] || fail "the merged copy is not in place: $word"
copydesk replace copy.feed --site 3 "$word" charter > ../said
git add copy.feed
git commit -qm "What the third room makes of it"
cd ..
# What was settled is settled: rooms that have corrected other words since pull it without a conflict.
correct two 2 '/^Line 80 /s/keyed in/typed/'
correct one 1 '/^Line 90 /s/keyed in/typed/'
(cd one && pull ../three main) || fail "what was settled is a conflict"
(cd two && pull ../three main) || fail "what was settled is a conflict"
(cd three && pull ../one main && pull ../two main) || fail "what was settled is a conflict"
(cd one && pull ../three main) && (cd two && pull ../three main)
cmp one/copy.feed two/copy.feed || fail "two feeds differ"
cmp one/copy.feed three/copy.feed || fail "two feeds differ"
(cd one && [ "$(line 50)" = "Line 50 of a charter, keyed in at one room and corrected in three." ]) || fail "what was settled is another word"
for line in 60 70 80 90; do
  (cd one && line $line | grep -q "typed at one room") || fail "a correction is lost: line $line"
done

# An earlier version that git brings is older than what the room made: no import goes on with it, under its number.
correct one 1 '/^Line 110 /s/keyed in/typed/'
older() {
  local got=0
  copydesk export copy.feed | sed '/^Line 120 /s/keyed in/typed/' > text
  cp copy.feed ../before.feed
  copydesk import copy.feed --site 1 < text > ../said 2> ../told || got=$?
  [ "$got" = 1 ] && [ "$(head -1 ../told)" = "copydesk: older feed" ] && [ ! -s ../said ] || fail "$1 is gone on with: status $got, $(cat ../told)"
  [[ "$(tail -1 ../told)" =~ ^copy.feed:\ site\ 1\ made\ [0-9]+\ here,\ and\ it\ holds\ [0-9]+$ ]] || fail "$1: $(cat ../told)"
  cmp copy.feed ../before.feed || fail "a refused import has changed the feed"
  rm text
}
cd one
git checkout -q HEAD~1 -- copy.feed
older "a version that was checked out"
git checkout -q HEAD -- copy.feed
git revert --no-edit HEAD > ../said
older "a version that was reverted to"
git revert --no-edit HEAD > ../said
cd ../two
pull ../one main
git revert --no-edit HEAD > ../said
cd ../one
pull ../two main || fail "an older feed cannot be pulled"
older "a version that another room has reverted to"
[ "$(git status --porcelain)" = "?? answer" ] || fail "what says how far a room has come is under version control"
git show HEAD~1:copy.feed > newer.feed
copydesk merge copy.feed newer.feed > ../said
rm newer.feed
copydesk export copy.feed | sed '/^Line 120 /s/keyed in/typed/' | copydesk import copy.feed --site 1 > ../said || fail "a feed that has all again is refused"
git commit -qam "All corrections again"
cd ..

# A second clone goes on under the first room's number: a pull conflicts and says who made what twice, and the copy stays.
git clone -q one again
(cd again && eval "$lines")
correct one 1 '/^Line 20 /s/keyed in/set/'
correct again 1 '/^Line 300 /s/Line/The line/; /^Line 301 /d'
cd again
git show HEAD:copy.feed > ../before.feed
got=0
git pull -q --no-edit ../one main > ../said 2> ../told || got=$?
[ "$got" != 0 ] || fail "two rooms have used one number, and a pull has merged their feeds"
grep -q '^copydesk: number used twice$' ../told || fail "a pull hides that a number was used twice: $(head -c 300 ../told)"
grep -q ': site 1 made [0-9. ]* here and there$' ../told || fail "a pull hides what was made twice: $(head -c 300 ../told)"
[ "$(git status --porcelain copy.feed)" = "UU copy.feed" ] || fail "a pull that is refused is no conflict"
cmp copy.feed ../before.feed || fail "a pull that is refused has changed the feed"
[ -z "$(find . -name '.merge_file_*')" ] || fail "a pull that is refused has left something behind"

# A number that nobody has settles it: what the other room holds is merged, and either room's corrections stand in both.
git show MERGE_HEAD:copy.feed > theirs.feed
got=0
copydesk renumber copy.feed theirs.feed --site 2 > ../said 2> ../told || got=$?
[ "$got" = 1 ] && grep -q '^copydesk: number in use$' ../told || fail "a number that a room has is given anew"
copydesk renumber copy.feed theirs.feed --site 4 > ../said
grep -q '^ok renumbered [1-9][0-9]*$' ../said || fail "nothing was renumbered"
copydesk merge copy.feed theirs.feed > ../said
grep -q '^faults none$' ../said || fail "what was renumbered has faults"
rm theirs.feed
git commit -qam "Both rooms' corrections, one of them renumbered"
cd ../one
pull ../again main || fail "what was renumbered cannot be pulled"
cmp copy.feed ../again/copy.feed || fail "two feeds differ"
copydesk export copy.feed > ../merged
for words in "^Line 20 of a licence, set at one room" "^The line 300 of" "typed at one room" "corrected in four."; do
  grep -q "$words" ../merged || fail "a correction is lost: $words"
done
[ "$(grep -c "^Line 301 of" ../merged)" = 0 ] || fail "a deleted line is there"
echo "git: three rooms, merged in different orders, have one feed, and a number used twice is refused and settled"
