# Documents with pages, pages as pictures, ribbons of several feeds, and marks where a galley ends: of the program as built.
# words.sh reads this file, in its folder and with its functions.
mkdir pages
cd pages
cp "$examples/case12.toml" "$examples/wedge5.toml" "$examples/chapter.txt" .
printf 'The last sheets are in the galleys again. Send word by _noon_ at latest.\n' > letter.txt
sets=(--set measure=150 --set tight=40 --set loose=200)
keyed letter.feed letter.txt
expect 0 "" proof letter.feed "${metal[@]}"
cp written proof.txt

# Words that are refused.
for words in "--page a4" "--page" "--html" "--html one.html --page" "--html one.html --page A4" "--html one.html --page legal" "--html one.html --page 199" \
  "--html one.html --page 14401" "--html one.html --page 0" "--html one.html --page -300" "--html one.html --page 300.5" "--html one.html --page 300pt" \
  "--html one.html --page 99999999999" "--html one.html --page a4 --page a4" "--html one.html --html two.html" "--svg one.svg --page 199" "--page 300 --faults" "--force --page 300"; do
  # shellcheck disable=SC2086
  expect 2 error: proof letter.feed "${metal[@]}" $words
done
for command in "read letter.rib" "punch letter.feed -o letter.rib"; do
  # shellcheck disable=SC2086
  expect 2 error: $command "${metal[@]}" --html one.html
  # shellcheck disable=SC2086
  expect 2 error: $command "${metal[@]}" --page a4
done
expect 2 error: sorts letter.feed --case case12.toml --html one.html
for words in "${metal[*]} -o one.rib" "letter.feed ${metal[*]}" "letter.feed letter.feed ${metal[*]}" "letter.feed letter.feed -o one.rib" "letter.feed ${metal[*]} -o one.rib -o two.rib" \
  "letter.feed ${metal[*]} -o one.rib --svg one.svg"; do
  # shellcheck disable=SC2086
  expect 2 error: punch $words
done
[ ! -e one.html ]
[ ! -e one.rib ]

# A document is stored beside the proof, in whatever form; the feed stays as it is.
cp letter.feed before.feed
expect 0 "" proof letter.feed "${metal[@]}" --html one.html
cmp written proof.txt
[ "$(head -n 5 one.html)" = '<!DOCTYPE html>
<html xmlns="http://www.w3.org/1999/xhtml" lang="en">
<head>
<meta charset="utf-8"/>
<meta name="generator" content="copydesk"/>' ]
[ "$(tail -n 3 one.html)" = '</svg>
</body>
</html>' ]
grep -qF '<title>Proof of letter.feed</title>' one.html
grep -qF '@page{size:570.00pt 842pt;margin:0}' one.html
grep -qF '<p>3 lines, 0 at fault, measure 150 points, tight 40, loose 200</p>' one.html
grep -qF '<p>Case 12 in case12.toml, wedge 5 in wedge5.toml.</p>' one.html
grep -qF '<p>No line is at fault.</p>' one.html
grep -qF '>letter.feed, case case12.toml, wedge wedge5.toml, measure 150 points, tight 40, loose 200, page 1 of 1<' one.html
[ "$(grep -c '<g id="line-' one.html)" = 3 ]
[ ! -e one.html.new ]
for more in "--page a4" "--page 842" "--page 0842" "--faults" "--format gcc" "--warn" "--set loose=200" "--svg one.svg" "--force"; do
  # shellcheck disable=SC2086
  expect 0 "" proof letter.feed "${metal[@]}" --html two.html $more
  cmp one.html two.html
done
expect 0 "" proof --text letter.txt "${metal[@]}" "${sets[@]}" --html two.html
sed 's/letter\.txt/letter.feed/' two.html | cmp - one.html
expect 0 "" proof letter.feed "${metal[@]}" --html two.html --page letter
sed 's/792/842/g' two.html | cmp - one.html
expect 0 "" proof letter.feed "${metal[@]}" --html two.html --page 14400
expect 0 "" proof letter.feed "${metal[@]}" --html two.html --page 200
grep -qF ' id="page-1">' two.html
expect 1 "" proof letter.feed "${metal[@]}" --html two.html --set loose=60
grep -qF '<td><a href="#line-1">1</a></td><td>0</td><td>too loose (wedge sum 190, limit 60)</td><td>5 spaces; the next word, ' two.html
expect 1 "" proof letter.feed "${metal[@]}" --html two.html --at 3
grep -qF '<p class="c">no galley: ' two.html
expect 1 "" proof letter.feed "${metal[@]}" --html two.html --set case=7
[ "$(tail -n 6 two.html)" = '<main>
<h1>Proof of letter.feed</h1>
<p class="c">no galley: the setting case is 7, and the case has the number 12</p>
</main>
</body>
</html>' ]
grep -qF '@page{size:500pt 842pt;margin:0}' two.html
printf 'a ~ b & <c>' > lacks.txt
expect 1 "" proof --text lacks.txt "${metal[@]}" "${sets[@]}" --html two.html
[ "$(grep -A 5 'Missing sorts' two.html)" = "<h2>Missing sorts</h2>
<ul>
<li>no matrix for roman '~' (U+007E) at place 2</li>
<li>no matrix for roman '&lt;' (U+003C) at place 8</li>
<li>no matrix for roman '&gt;' (U+003E) at place 10</li>
</ul>" ]
put '4d464431 02 0000000000000063 0009 0000000000000062 0009' > waits.feed
cp letter.feed faulty.feed
expect 0 "" merge faulty.feed waits.feed
expect 1 "" proof faulty.feed "${metal[@]}" --html two.html
[ "$(grep -A 3 'Faults of the copy' two.html)" = '<h2>Faults of the copy</h2>
<ul>
<li>waiting 99.9: what it hangs on has not come</li>
</ul>' ]
cmp letter.feed before.feed

# It replaces only a document or an empty file, but where it is forced, and never what it is made of. What is before it is stored.
printf '<!DOCTYPE html>\n<html>\n' > other.html
printf 'a note\n' > note.txt
head -n 4 one.html > cut.html
expect 0 "" punch letter.feed "${metal[@]}" -o letter.rib
for name in "other.html another file" "note.txt another file" "cut.html another file" "waits.feed a feed" "letter.rib a ribbon" "one.svg a picture"; do
  read -r name kind <<< "$name"
  cp "$name" kept
  expect 1 "copydesk: not replaced
$name: $kind stands there" proof letter.feed "${metal[@]}" --html "$name"
  cmp written proof.txt
  cmp "$name" kept
done
head -n 5 one.html > begun.html
: > empty.html
for name in begun.html empty.html; do
  expect 0 "" proof letter.feed "${metal[@]}" --html $name
  cmp $name one.html
done
for words in "punch letter.feed -o" "proof letter.feed --svg" "read letter.rib --svg"; do
  # shellcheck disable=SC2086
  expect 1 "copydesk: not replaced
one.html: a document stands there" $words one.html "${metal[@]}"
done
expect 0 "" proof letter.feed "${metal[@]}" --html other.html --force
cmp other.html one.html
for force in "" --force; do
  for name in letter.feed case12.toml wedge5.toml; do
    # shellcheck disable=SC2086
    refused "copydesk: file fault
$name: the document would take its place" proof letter.feed "${metal[@]}" --html $name $force
  done
  # shellcheck disable=SC2086
  refused "copydesk: file fault
letter.txt: the document would take its place" proof --text letter.txt "${metal[@]}" "${sets[@]}" --html letter.txt $force
  # shellcheck disable=SC2086
  refused "copydesk: file fault
both: the document would take its place" proof letter.feed "${metal[@]}" --svg both --html both $force
done
[ ! -e both ]
expect 1 "copydesk: not replaced
note.txt: another file stands there" proof letter.feed "${metal[@]}" --svg note.txt --html three.html
[ "$(cat faults)" = "copydesk: not replaced
note.txt: another file stands there" ]
cmp three.html one.html
rm three.html
expect 1 "copydesk: not replaced" proof letter.feed "${metal[@]}" --svg note.txt --html waits.feed
[ "$(cat faults)" = "copydesk: not replaced
note.txt: another file stands there
copydesk: not replaced
waits.feed: a feed stands there" ]
cmp written proof.txt
expect 1 "copydesk: file fault
none/one.html" proof letter.feed "${metal[@]}" --html none/one.html
expect 1 "copydesk: file fault
none.feed: it cannot be read" proof none.feed "${metal[@]}" --html never.html
refused "copydesk: input refused
--set loose=9: no setting, or no value that it may have" proof letter.feed "${metal[@]}" --set loose=9 --html never.html
[ ! -e never.html ]
odd=$'<b> & "c\e".feed'
cp letter.feed "$odd"
expect 0 "" proof "$odd" "${metal[@]}" --html two.html
grep -qF '<title>Proof of &lt;b&gt; &amp; &quot;c' two.html
grep -qF '&quot;.feed</title>' two.html
full proof letter.feed "${metal[@]}" --html never.html
cmp never.html one.html

# The pages of a galley as pictures, each under its number; the name itself is for a galley of one page.
chapter=(--text chapter.txt "${metal[@]}" --set measure=400 --set tight=40 --set loose=150 --faults)
expect 1 "" proof "${chapter[@]}" --html chapter.html --page 600
count=$(grep -c '<svg ' chapter.html)
[ "$count" -gt 9 ]
expect 1 "" proof "${chapter[@]}" --svg chapter.svg --page 600
[ "$(ls chapter.*svg | wc -l)" = "$count" ]
[ ! -e chapter.svg ]
for k in 1 2 9 "$count"; do
  [ "$(head -c 5 "chapter.$k.svg")" = "<svg " ]
  grep -qF "id=\"page-$k\">" "chapter.$k.svg"
  grep -qF ", page $k of $count<" "chapter.$k.svg"
done
cat $(for ((k = 1; k <= count; k++)); do echo "chapter.$k.svg"; done) | grep '^<g id="line-' > lines
grep '^<g id="line-' chapter.html | cmp - lines
expect 0 "" proof letter.feed "${metal[@]}" --svg three.svg --page 600
cmp three.svg one.svg
expect 1 "" proof "${chapter[@]}" --svg ./chapter --page 600
cmp chapter.1 chapter.1.svg
[ ! -e chapter ]
printf 'a note\n' > chapter.3.svg
rm chapter.[12456789].svg
for force in "" --force; do
  # shellcheck disable=SC2086
  expect 1 "copydesk: not replaced" proof "${chapter[@]}" --svg chapter.svg --page 600 --html three.html $force
  [ "$(cat chapter.3.svg)" = "a note" ]
  cmp chapter.2 chapter.2.svg
  [ ! -e chapter.4.svg ]
  cmp three.html chapter.html
done

# A ribbon of several feeds has the rows of each, in the order given and by its own settings; `read` marks where a galley ends.
rows() { tail -c +9 "$1" | od -An -v -tx1 | tr -d ' \n'; }
cp letter.feed second.feed
expect 0 "" replace second.feed --site 1 latest 'the latest'
printf 'set 1 measure 198\n' | "$program" desk second.feed --site 1 > written
cp letter.feed none.feed
printf 'set 1 loose 200\n' | "$program" desk none.feed --site 1 > written
expect 0 "" import none.feed --site 1 --all
expect 0 "" punch second.feed "${metal[@]}" -o second.rib
expect 0 "" punch none.feed "${metal[@]}" -o none.rib
[ "$(rows none.rib)" = 00000206 ]
for names in "letter second" "second letter" "letter letter letter" "none letter none" "none" "letter"; do
  feeds=() due=""
  for name in $names; do
    feeds+=("$name.feed")
    due+=$(rows "$name.rib")
  done
  expect 0 "" punch "${feeds[@]}" "${metal[@]}" -o many.rib
  [ ! -s written ]
  [ "$(rows many.rib)" = "$due" ]
  [ "$(head -c 8 many.rib | od -An -v -tx1 | tr -d ' \n')" = "4d524231$(printf %08x $((${#due} / 8)))" ]
done
cmp many.rib letter.rib
expect 0 "" punch letter.feed second.feed "${metal[@]}" -o many.rib
expect 0 "" check many.rib
expect 0 "" read letter.rib "${metal[@]}"
cp written whole.txt
expect 0 "" read second.rib "${metal[@]}"
tail -n +4 written | cut -c 7-24,35- > second.txt
expect 0 "" read many.rib "${metal[@]}"
cp written many.txt
[ "$(sed -n 7p many.txt)" = "  -- end of galley 1 --" ]
[ "$(grep -c 'end of galley' many.txt)" = 1 ]
tail -n +8 many.txt | cut -c 7-24,35- | cmp - second.txt
sed -n '4,6p' many.txt | cut -c 1-24,35- > first.txt
tail -n +4 whole.txt | cut -c 1-24,35- | cmp - first.txt
for range in "1..2 4,5" "1..3 4,7" "3..3 6,7" "3..4 6,8" "4..5 8,9" "4..9 8,99" "1..9 4,99"; do
  read -r range lines <<< "$range"
  expect 0 "" read many.rib "${metal[@]}" --lines "$range"
  { head -n 3 many.txt; sed -n "${lines}p" many.txt; } | cmp - written
done
expect 0 "" read many.rib "${metal[@]}" --stats --svg many.svg
if grep -q galley written many.svg; then exit 1; fi
expect 0 "" punch none.feed none.feed letter.feed none.feed "${metal[@]}" -o marks.rib
expect 0 "" read marks.rib "${metal[@]}"
{ head -n 3 written; printf '  -- end of galley %d --\n' 1 2; tail -n +4 whole.txt; printf '  -- end of galley 3 --\n'; } | cmp - written
for range in "1..1 4,6" "2..2 7,7" "3..3 8,9" "2..9 7,9"; do
  read -r range lines <<< "$range"
  cp written all.txt
  expect 0 "" read marks.rib "${metal[@]}" --lines "$range"
  { head -n 3 all.txt; sed -n "${lines}p" all.txt; } | cmp - written
  cp all.txt written
done
expect 0 "" diff letter.rib marks.rib "${metal[@]}"
[ "$(cat written)" = "letter.rib 3 lines, marks.rib 3 lines, none differs" ]

# The first feed that is not in order stops the run, and nothing is stored.
cp many.rib kept
cp letter.feed loose.feed
printf 'set 1 loose 60\n' | "$program" desk loose.feed --site 1 > written
cp letter.feed case.feed
printf 'set 1 case 7\n' | "$program" desk case.feed --site 1 > written
expect 1 "copydesk: no ribbon
loose.feed: its job has faults" punch letter.feed loose.feed faulty.feed "${metal[@]}" -o many.rib
[ "$(cat written)" = "no ribbon: too loose 1, too loose 2" ]
expect 1 "copydesk: copy faults
faulty.feed: its copy has faults" punch letter.feed faulty.feed loose.feed "${metal[@]}" -o many.rib
[ "$(cat written)" = "faults waiting 99.9" ]
expect 1 "copydesk: no ribbon
case12.toml: it is case 12, and case.feed has the setting case 7" punch letter.feed faulty.feed case.feed "${metal[@]}" -o many.rib --faulty
[ "$(cat written)" = "no ribbon: other case" ]
for names in "letter.feed absent.feed loose.feed" "absent.feed loose.feed"; do
  # shellcheck disable=SC2086
  expect 1 "copydesk: file fault
absent.feed: it cannot be read" punch $names "${metal[@]}" -o many.rib
  [ ! -s written ]
done
expect 1 "copydesk: feed refused
note.txt: byte 0: no feed begins so" punch letter.feed note.txt "${metal[@]}" -o many.rib
expect 1 "copydesk: file fault
absent.feed: it cannot be read" punch absent.feed letter.feed --case none.toml --wedge wedge5.toml -o many.rib
expect 1 "copydesk: input refused
none.toml: it cannot be read" punch loose.feed absent.feed --case none.toml --wedge wedge5.toml -o many.rib
cmp many.rib kept
for name in letter.feed second.feed case12.toml wedge5.toml; do
  for force in "" --force; do
    # shellcheck disable=SC2086
    refused "copydesk: file fault
$name: the ribbon would take its place" punch letter.feed second.feed "${metal[@]}" -o $name $force
  done
done
expect 1 "copydesk: not replaced
waits.feed: a feed stands there" punch letter.feed second.feed "${metal[@]}" -o waits.feed
expect 0 "" punch letter.feed faulty.feed "${metal[@]}" -o many.rib --faulty
expect 0 "" punch letter.feed letter.feed "${metal[@]}" -o kept
cmp many.rib kept
full punch loose.feed letter.feed "${metal[@]}" -o many.rib
printf 'case = "case12.toml"\nwedge = "wedge5.toml"\n' > copydesk.toml
expect 0 "" punch letter.feed faulty.feed -o many.rib --faulty
cmp many.rib kept
rm copydesk.toml
cmp letter.feed before.feed

# More than 67,108,864 bytes are too long: each of these feeds has over a million rows.
many n 866660 | fold -w 5 | tr '\n' ' ' | "$program" import most.feed --site 1 --plain > written
printf 'set 1 measure 720\nset 1 tight 40\nset 1 loose 240\nset 1 case 12\nset 1 wedge 5\n' | "$program" desk most.feed --site 1 > written
most=(most.feed most.feed most.feed most.feed most.feed most.feed most.feed most.feed)
cp kept many.rib
expect 1 "copydesk: too long" punch most.feed "${most[@]}" "${most[@]}" "${metal[@]}" -o many.rib
[ ! -s written ]
cmp many.rib kept
expect 0 "" punch "${most[@]}" letter.feed "${metal[@]}" -o many.rib
expect 0 "" check many.rib
rm many.rib most.feed

# The help names the new words.
for words in "proof --html --page a4 letter" "punch <feed>... one.feed" "read galley"; do
  read -r command names <<< "$words"
  told=$("$program" "$command" --help)
  for name in $names; do
    [[ "$told" == *"$name"* ]]
  done
done
cd ..
