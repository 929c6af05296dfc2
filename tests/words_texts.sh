# Ribbons in part, by their figures and against each other; texts proofed, for editors too, and second looks: of the program as
# built. words.sh reads this file, in its folder and with its functions.
mkdir texts
cd texts
cp "$examples/case12.toml" "$examples/wedge5.toml" .
printf 'The last sheets are in the galleys again. Send word by _noon_ at latest.\n' > letter.txt
sets=(--set measure=150 --set tight=40 --set loose=200)
keyed() {
  "$program" import "$1" --site 1 < "$2" > written
  printf 'set 1 measure 150\nset 1 tight 40\nset 1 loose 200\nset 1 case 12\nset 1 wedge 5\n' | "$program" desk "$1" --site 1 > written
}
keyed letter.feed letter.txt
expect 0 "" punch letter.feed "${metal[@]}" -o letter.rib
cp letter.feed other.feed
expect 0 "" replace other.feed --site 1 again. again,
expect 0 "" punch other.feed "${metal[@]}" -o other.rib
put '4d524231 00000001 00000206' > head.rib
put '4d524231 00000000' > none.rib
head -c -4 letter.rib > cut.rib
# (without the head row nothing sends out the first line)
put '4d524231 00000052' > unsent.rib
tail -c +13 letter.rib >> unsent.rib

# Words that are refused.
for words in "--lines 0..3" "--lines 3..2" "--lines 3" "--lines 1.." "--lines ..2" "--lines 1...2" "--lines 1..2..3" "--lines x..2" "--lines 1..y" "--lines -1..2" \
  "--lines 1,2" "--lines 1-2" "--lines" "--lines 1..99999999999999999999999" "--lines 1..2 --stats" "--stats --lines 1..2" "--lines 1..2 --pitch 1/8" "--pitch 1/8" \
  "--stats --pitch" "--stats --pitch 0/8" "--stats --pitch 1/0" "--stats --pitch 1/70000" "--stats --pitch 65536/1" "--stats --pitch 1" "--stats --pitch 8" \
  "--stats --pitch 1/8/2" "--stats --pitch /8" "--stats --pitch 1/" "--stats --pitch 0.125" "--stats --pitch 1:8" "--stats --pitch -1/8" "--stats now"; do
  # shellcheck disable=SC2086
  expect 2 error: read letter.rib "${metal[@]}" $words
done
for words in "letter.rib other.rib --case case12.toml" "letter.rib other.rib --wedge wedge5.toml" "letter.rib ${metal[*]}" "letter.rib other.rib ${metal[*]} --at 3" \
  "letter.rib --at 3 ${metal[*]}" "${metal[*]}" "letter.rib other.rib cut.rib ${metal[*]}" "letter.rib other.rib ${metal[*]} --lines 1..2"; do
  # shellcheck disable=SC2086
  expect 2 error: diff $words
done
for words in "" "letter.feed --text letter.txt" "--text" "letter.feed --plain" "letter.feed --format" "letter.feed --format other" "letter.feed --format GCC" \
  "letter.feed --format gcc --format gcc" "letter.feed --warn now" "--text letter.txt --at 3" "--text letter.txt --format other" "--text letter.txt letter.feed"; do
  # shellcheck disable=SC2086
  expect 2 error: proof $words "${metal[@]}"
done
expect 2 error: proof --text letter.txt --case case12.toml
expect 2 error: import letter.feed --site 1 --text letter.txt

# Some lines of a ribbon, with their numbers as in the whole; a range may go beyond the end.
expect 0 "" read letter.rib "${metal[@]}"
cp written whole.txt
for range in "1..3" "1..1" "2..2" "2..3" "3..9" "3..4294967295" "4..4" "4..9"; do
  expect 0 "" read letter.rib "${metal[@]}" --lines $range
  { head -n 3 whole.txt; tail -n +4 whole.txt | sed -n "$(sed 's/\.\./,/' <<< $range)p"; } | cmp - written
done
expect 0 "" read letter.rib "${metal[@]}" --lines=2..2
[ "$(cat written)" = "RIBBON 3 lines, 83 rows, longest 150.0 points

  line    c/f     points   short  text
     2    8/2      149.9     0.1  galleys again. Send word by" ]

# Its figures.
expect 0 "" read letter.rib "${metal[@]}" --stats
[ "$(cat written)" = "RIBBON 3 lines, 83 rows, longest 150.0 points

widest    line 3, 150.0 points
tightest  line 3, wedge sum 53
length    10.4 inches, 1/8 inch a row
matrices  76
blank     7

  row  matrices
    1        20
    2         6
    3         7
    4        17
    5         3
    6         4
    7         2
    8         9
    9         0
   10         1
   11         1
   12         0
   13         0
   14         0
   15         6" ]
cp written stats.txt
for pitch in "1/8 10.4" "2/16 10.4" "1/10 8.3" "1/83 1.0" "83/83 83.0" "1/65535 0.1" "65535/1 5439405.0" "1/84 1.0" "1/82 1.1"; do
  read -r pitch length <<< "$pitch"
  expect 0 "" read letter.rib "${metal[@]}" --stats --pitch "$pitch"
  sed "s|^length .*|length    $length inches, $pitch inch a row|" stats.txt | cmp - written
done
for name in head none; do
  rows=$([ $name = head ] && echo 1 || echo 0)
  for more in "" "--lines 1..2"; do
    # shellcheck disable=SC2086
    expect 0 "" read $name.rib "${metal[@]}" $more
    [ "$(cat written)" = "RIBBON 0 lines, $rows rows, longest 0.0 points

  line    c/f     points   short  text" ]
  done
  expect 0 "" read $name.rib "${metal[@]}" --stats
  [ "$(head -n 7 written)" = "RIBBON 0 lines, $rows rows, longest 0.0 points

widest    none
tightest  none
length    0.$((rows * 2)) inches, 1/8 inch a row
matrices  0
blank     0" ]
done
for more in "" "--lines 1..2" "--stats" "--stats --pitch 1/10"; do
  # shellcheck disable=SC2086
  expect 1 "" read cut.rib "${metal[@]}" $more
  [ "$(cat written)" = "no ribbon: it has not as many rows as it says" ]
  # shellcheck disable=SC2086
  expect 1 "" read unsent.rib "${metal[@]}" $more
  [ "$(cat written)" = "row 26: not sent out: nothing sends out the line that this row starts" ]
  # shellcheck disable=SC2086
  expect 1 "copydesk: file fault
missing.rib: it cannot be read" read missing.rib "${metal[@]}" $more
  # shellcheck disable=SC2086
  expect 1 "copydesk: input refused
case13.toml: it cannot be read" read letter.rib --case case13.toml --wedge wedge5.toml $more
  # shellcheck disable=SC2086
  full read letter.rib "${metal[@]}" $more
done

# A picture of some lines has a title; with figures it is that of the whole.
titled() {
  local title=$1 status=$2
  shift 2
  expect "$status" "" read "$@" "${metal[@]}" --svg part.svg
  grep -qF ">$title<" part.svg
}
titled "Ribbon of 83 rows, as the caster meets them" 0 letter.rib
cp part.svg whole.svg
titled "Ribbon of 83 rows, as the caster meets them" 0 letter.rib --stats
cmp part.svg whole.svg
titled "Rows 1 to 28 of a ribbon of 83 rows, as the caster meets them" 0 letter.rib --lines 1..1
titled "Rows 1 to 82 of a ribbon of 83 rows, as the caster meets them" 0 letter.rib --lines 1..9
titled "Rows 58 to 82 of a ribbon of 83 rows, as the caster meets them" 0 letter.rib --lines 3..3
[ "$(grep -c '<text class="n"' part.svg)" = 25 ]
titled "No rows of a ribbon of 83 rows" 0 letter.rib --lines 4..9
titled "No rows of a ribbon of 0 rows" 0 none.rib --lines 1..1
titled "Rows 57 to 81 of a ribbon of 82 rows, as the caster meets them" 1 unsent.rib --lines 3..3
printf 'a note\n' > note.txt
expect 1 "copydesk: not replaced
note.txt: another file stands there" read letter.rib "${metal[@]}" --lines 2..2 --svg note.txt
refused "copydesk: file fault
letter.rib: the picture would take its place" read letter.rib "${metal[@]}" --lines 2..2 --svg letter.rib

# Two ribbons are told apart by what they cast.
expect 0 "" diff letter.rib letter.rib "${metal[@]}"
[ "$(cat written)" = "letter.rib 3 lines, letter.rib 3 lines, none differs" ]
cp letter.rib same.rib
expect 0 "" diff letter.rib same.rib "${metal[@]}"
[ "$(cat written)" = "letter.rib 3 lines, same.rib 3 lines, none differs" ]
expect 0 "" read other.rib "${metal[@]}"
cp written second.txt
expect 1 "" diff letter.rib other.rib "${metal[@]}"
[ "$(cat written)" = "letter.rib 3 lines, other.rib 3 lines, 1 differs

- $(sed -n 5p whole.txt)
+ $(sed -n 5p second.txt)" ]
[ "$(sed -n 3p written)" = "-      2    8/2      149.9     0.1  galleys again. Send word by" ]
expect 1 "" diff --wedge wedge5.toml head.rib --case case12.toml letter.rib
[ "$(cat written)" = "head.rib 0 lines, letter.rib 3 lines, 3 differ

$(tail -n +4 whole.txt | sed 's/^/+ /')" ]
expect 1 "" diff letter.rib head.rib "${metal[@]}"
[ "$(cat written)" = "letter.rib 3 lines, head.rib 0 lines, 3 differ

$(tail -n +4 whole.txt | sed 's/^/- /')" ]
expect 0 "" diff none.rib head.rib "${metal[@]}"
[ "$(cat written)" = "none.rib 0 lines, head.rib 0 lines, none differs" ]
for name in cut.rib unsent.rib letter.feed; do
  expect 1 "" read $name "${metal[@]}"
  why=$(cat written)
  for names in "letter.rib $name" "$name letter.rib"; do
    # shellcheck disable=SC2086
    expect 1 "" diff $names "${metal[@]}"
    [ "$(cat written)" = "$name: $why" ]
  done
  expect 1 "" diff $name cut.rib "${metal[@]}"
  [ "$(cat written)" = "$name: $why
cut.rib: no ribbon: it has not as many rows as it says" ]
done
expect 1 "copydesk: file fault
missing.rib: it cannot be read" diff missing.rib gone.rib --case case13.toml --wedge wedge6.toml
[ ! -s written ]
expect 1 "copydesk: file fault
gone.rib: it cannot be read" diff cut.rib gone.rib --case case13.toml --wedge wedge6.toml
[ ! -s written ]
expect 1 "copydesk: input refused
case13.toml: it cannot be read" diff cut.rib letter.rib --case case13.toml --wedge wedge6.toml
[ ! -s written ]
expect 1 "copydesk: input refused
wedge6.toml: it cannot be read" diff cut.rib letter.rib --case case12.toml --wedge wedge6.toml
expect 1 "copydesk: input refused
wedge5.toml: a key of a case is missing" diff cut.rib letter.rib --case wedge5.toml --wedge wedge5.toml
expect 1 "copydesk: feed refused" diff letter.rib other.rib
full diff letter.rib other.rib "${metal[@]}"
odd=$'\e[31m'"$mark.rib"
cp other.rib "$odd"
expect 1 "" diff letter.rib "$odd" "${metal[@]}"
[ "$(head -n 1 written)" = 'letter.rib 3 lines, \x1b[31m<U+202E>.rib 3 lines, 1 differs' ]
expect 1 "" diff "$odd" cut.rib "${metal[@]}"
[ "$(cat written)" = "cut.rib: no ribbon: it has not as many rows as it says" ]

# A text is proofed as a feed of it is; its case and its wedge are those of the files.
expect 0 "" proof letter.feed "${metal[@]}" --svg a.svg
cp written proof.txt
expect 0 "" proof --text letter.txt "${metal[@]}" "${sets[@]}" --svg b.svg
cmp written proof.txt
cmp a.svg b.svg
for more in "--faults" "--faults --set loose=150" "--set measure=60" "--set case=7" "--set wedge=9" "--set tight=240" "--format gcc" "--format gcc --set loose=100" "--warn --set tight=38"; do
  got=0
  # shellcheck disable=SC2086
  "$program" proof letter.feed "${metal[@]}" $more > one.txt 2> faults || got=$?
  # shellcheck disable=SC2086
  expect $got "" proof --text letter.txt "${metal[@]}" "${sets[@]}" $more
  sed 's/^letter\.feed:/letter.txt:/' one.txt | cmp - written
done
expect 1 "" proof --text letter.txt "${metal[@]}"
[ "$(cat written)" = "no galley: the settings measure, tight and loose have no value" ]
expect 1 "" proof --text letter.txt "${metal[@]}" --set measure=150 --set tight=40 --format gcc
[ "$(cat written)" = "letter.txt: no galley: the setting loose has no value" ]
expect 1 "" proof --text letter.txt "${metal[@]}" "${sets[@]}" --set case=7
[ "$(cat written)" = "no galley: the setting case is 7, and the case has the number 12" ]
: > empty.txt
expect 0 "" proof --text empty.txt "${metal[@]}" "${sets[@]}" --warn
[ "$(head -n 1 written)" = "GALLEY 0 lines, 0 at fault, measure 150 points, tight 40, loose 200" ]
expect 0 "" proof --text empty.txt "${metal[@]}" "${sets[@]}" --format gcc --warn
[ ! -s written ]
expect 1 "" proof --text letter.txt --plain "${metal[@]}" "${sets[@]}" --format gcc
[ "$(cat written)" = "letter.txt:1:56: no matrix for Roman _
letter.txt:1:61: no matrix for Roman _" ]

# A text that is no copy, one that is too long, and one that is not there.
printf 'The sheets\n of _noon\n' > open.txt
refused "copydesk: input refused
open.txt: line 2, column 10: a style that is open at the end of the line" proof --text open.txt "${metal[@]}" "${sets[@]}" --svg never.svg --format gcc
refused "copydesk: input refused
open.txt: line 2, column 10: a style that is open at the end of the line" proof --text open.txt --case case13.toml --wedge wedge6.toml
expect 1 "" proof --text open.txt --plain "${metal[@]}" "${sets[@]}"
for text in 'a\tb' 'a\\q' 'a\\' 'a\rb' 'a\xff' '_a^b^_' '_a\n_'; do
  # shellcheck disable=SC2059
  printf "$text" > bad.txt
  got=0
  "$program" import never.feed --site 1 < bad.txt > written 2> faults || got=$?
  [ "$got" = 1 ]
  refused "copydesk: input refused
bad.txt: $(sed 's/^copydesk: //' faults)" proof --text bad.txt "${metal[@]}" "${sets[@]}" --svg never.svg
done
[ ! -e never.feed ]
[ ! -e never.svg ]
expect 1 "copydesk: file fault
missing.txt: it cannot be read" proof --text missing.txt "${metal[@]}" "${sets[@]}"
expect 1 "copydesk: input refused
case13.toml: it cannot be read" proof --text letter.txt --case case13.toml --wedge wedge5.toml
refused "copydesk: input refused
--set loose=9: no setting, or no value that it may have" proof --text letter.txt "${metal[@]}" --set loose=9
many a 8388608 > long.txt
expect 1 "copydesk: too long
long.txt: " proof --text long.txt "${metal[@]}" "${sets[@]}"
many a 8388609 > long.txt
expect 1 "copydesk: too long
long.txt: it has more than 8388608 bytes" proof --text long.txt "${metal[@]}" "${sets[@]}"
[ ! -s written ]
many a 1048576 | fold -w 2 > most.txt
head -c 1048577 most.txt > long.txt
expect 1 "copydesk: too long
long.txt: " proof --text long.txt "${metal[@]}" "${sets[@]}" --plain
[ ! -s written ]
head -c 1048576 long.txt > most.txt
expect 0 "" proof --text most.txt "${metal[@]}" --set measure=720 --set tight=38 --set loose=240 --faults
[[ "$(cat written)" == "GALLEY "*" lines, 0 at fault, measure 720 points, tight 38, loose 240" ]]
rm long.txt most.txt

# A picture never takes the place of the text, and no file beside it is made.
for name in letter.txt case12.toml wedge5.toml; do
  for force in "" --force; do
    # shellcheck disable=SC2086
    refused "copydesk: file fault
$name: the picture would take its place" proof --text letter.txt "${metal[@]}" "${sets[@]}" --svg $name $force
  done
done
expect 1 "copydesk: not replaced
letter.feed: a feed stands there" proof --text letter.txt "${metal[@]}" "${sets[@]}" --svg letter.feed
cmp written proof.txt
full proof --text letter.txt "${metal[@]}" "${sets[@]}"
full proof --text letter.txt "${metal[@]}" "${sets[@]}" --format gcc --set loose=100
for name in letter.txt.lock letter.txt.last letter.txt.new letter.rib.lock other.rib.lock; do
  [ ! -e $name ]
done

# Faults for editors, each at its place, and second looks, which are no faults.
cat > notes.txt <<'END'
The last sheets are in the the galleys again ~ Send word by _noon_ at la-
test. The second pro-  of \_is_ due_ on Mon- day ,
and "é_é"_ is ^é^ on Monday .
unabridgeabilityandothersuchwords
END
sed -i '2s/$/\r/' notes.txt
sets=(--set measure=100 --set tight=40 --set loose=60)
faults='notes.txt:1:46: no matrix for Roman ~
notes.txt:2:28: no matrix for Roman _
notes.txt:3:5: no matrix for Roman "
notes.txt:3:9: no matrix for italic "
notes.txt:3:16: no matrix for small capital é
notes.txt:1:1: too loose (wedge sum 120, limit 60)
notes.txt:1:21: too loose (wedge sum 182, limit 60)
notes.txt:1:40: too loose (wedge sum 176, limit 60)
notes.txt:2:1: too loose (wedge sum 303, limit 60)
notes.txt:2:18: too loose (wedge sum 141, limit 60)
notes.txt:3:1: too loose (wedge sum 298, limit 60)
notes.txt:4:1: too wide'
looks='notes.txt:2:21: warning: hyphen inside a line
notes.txt:2:44: warning: hyphen inside a line
notes.txt:2:22: warning: two spaces
notes.txt:2:49: warning: space before a comma
notes.txt:3:28: warning: space before a point
notes.txt:3:5: warning: straight quote
notes.txt:3:9: warning: straight quote
notes.txt:1:28: warning: word repeated'
for more in "" "--faults"; do
  # shellcheck disable=SC2086
  expect 1 "" proof --text notes.txt "${metal[@]}" "${sets[@]}" --format gcc $more
  [ "$(cat written)" = "$faults" ]
  # shellcheck disable=SC2086
  expect 1 "" proof --text notes.txt "${metal[@]}" "${sets[@]}" --format gcc --warn $more
  [ "$(cat written)" = "$faults
$looks" ]
  # shellcheck disable=SC2086
  expect 1 "" proof --text notes.txt "${metal[@]}" "${sets[@]}" $more
  cp written plain.txt
  # shellcheck disable=SC2086
  expect 1 "" proof --text notes.txt "${metal[@]}" "${sets[@]}" --warn $more
  [ "$(head -c "$(wc -c < plain.txt)" written)" = "$(cat plain.txt)" ]
  [ "$(tail -c +"$(($(wc -c < plain.txt) + 1))" written)" = '
look at 92: hyphen inside a line: "test. The second pro-  of \_is _due_ on Mon- "
look at 112: hyphen inside a line: "-  of \_is _due_ on Mon- day , and "é_é"_ is ^é^ "
look at 93: two spaces: "est. The second pro-  of \_is _due_ on Mon- d"
look at 117: space before a comma: " \_is _due_ on Mon- day , and "é_é"_ is ^é^ on Mo"
look at 143: space before a point: " "é_é"_ is ^é^ on Monday . unabridgeabilityand"
look at 124: straight quote: "_e_ on Mon- day , and "é_é"_ is ^é^ on Monday ."
look at 127: straight quote: "n Mon- day , and "é_é"_ is ^é^ on Monday . un"
look at 27: word repeated: "t sheets are in the the galleys again ~ Sen"' ]
done
# (a feed has the places of its export: its marks are those of the text here, but for the carriage return)
keyed notes.feed notes.txt
expect 1 "" proof notes.feed "${metal[@]}" "${sets[@]}" --format gcc --warn
sed 's/^notes\.feed:/notes.txt:/' written > one.txt
"$program" export notes.feed > notes.txt
expect 1 "" proof --text notes.txt "${metal[@]}" "${sets[@]}" --format gcc --warn
cmp written one.txt
# Looks alone leave status 0, and there are none without a galley.
printf 'We send  word.\nSend word.\nNo word.\nAdd a word.\n' > looks.txt
expect 0 "" proof --text looks.txt "${metal[@]}" --set measure=150 --set tight=40 --set loose=240 --format gcc --warn
[ "$(cat written)" = "looks.txt:1:8: warning: two spaces
looks.txt:3:4: warning: three lines end alike
looks.txt:4:7: warning: three lines end alike" ]
expect 0 "" proof --text looks.txt "${metal[@]}" --set measure=150 --set tight=40 --set loose=240 --faults --warn
[ "$(cat written)" = 'GALLEY 4 lines, 0 at fault, measure 150 points, tight 40, loose 240

look at 7: two spaces: "We send  word. Send word. No "
look at 29: three lines end alike: "word. Send word. No word. Add a word. "
look at 41: three lines end alike: "ord. No word. Add a word. "' ]
expect 1 "" proof --text looks.txt "${metal[@]}" --warn
[ "$(cat written)" = "no galley: the settings measure, tight and loose have no value" ]
put '4d464431 02 0000000000000063 0009 0000000000000062 0009' > waits.feed
expect 0 "" merge letter.feed waits.feed
expect 1 "" proof letter.feed "${metal[@]}" --format gcc
[ "$(cat written)" = "letter.feed: waiting 99.9" ]
expect 1 "" proof letter.feed "${metal[@]}" --format gcc --set case=7
[ "$(cat written)" = "letter.feed: waiting 99.9
letter.feed: no galley: the setting case is 7, and the case has the number 12" ]
cp looks.txt "$odd"
expect 0 "" proof --text "$odd" "${metal[@]}" --set measure=150 --set tight=40 --set loose=240 --format gcc --warn
[ "$(head -n 1 written)" = '\x1b[31m<U+202E>.rib:1:8: warning: two spaces' ]

# The file of a room gives case, wedge and settings of a text; to `diff` it gives nothing.
printf 'case = "case12.toml"\nwedge = "wedge5.toml"\nsite = 3\n[set]\nmeasure = 150\ntight = 40\nloose = 200\n' > copydesk.toml
expect 0 "" proof --text letter.txt
cmp written proof.txt
expect 0 "" proof --text letter.txt --format gcc
[ ! -s written ]
expect 0 "" read letter.rib --lines 1..3
cmp written whole.txt
expect 0 "" read letter.rib --stats
cmp written stats.txt
expect 1 "copydesk: feed refused" diff letter.rib other.rib
expect 2 error: diff letter.rib other.rib --case case12.toml
rm copydesk.toml

# A reader that has seen enough.
for _ in $(seq 3000); do printf 'The the sheets are in "the" galleys again  ~ Send word by _noon_ at latest .\n'; done > wide.txt
cp ../wide.rib .
cp ../before.feed wide.feed
for read in 1 0; do
  closed "" proof --text wide.txt "${metal[@]}" "${sets[@]}" --warn
  closed "" proof --text wide.txt "${metal[@]}" "${sets[@]}" --format gcc --warn --svg wide.svg --force
  [ "$(tail -c 7 wide.svg)" = "</svg>" ]
  closed "" diff wide.rib letter.rib "${metal[@]}"
  closed "" read wide.rib "${metal[@]}" --lines 2..100000 --svg wide.svg --force
  [ "$(tail -c 7 wide.svg)" = "</svg>" ]
done

# The help names the new words.
for words in "read --lines --stats --pitch" "diff --case --wedge" "proof --text --plain --format --warn"; do
  read -r command names <<< "$words"
  told=$("$program" "$command" --help)
  for name in $names; do
    [[ "$told" == *"$name"* ]]
  done
done
cd ..
