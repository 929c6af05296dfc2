#!/usr/bin/env bash
# Kills a run on a stored feed at many moments: afterwards the old feed stands, or the new one, and never a part; and FEED.last,
# which is written after the feed, stands beside the new one alone, whole or not at all: kill.sh [PROGRAM [ROUNDS [SIZE]]].
# The moments are spread over three times a run's length, in no order. The old feed has SIZE settings. At TERM it says how far it was.
set -euo pipefail
program=$(realpath "${1:-$(dirname "$0")/../crates/copydesk/out/copydesk}")
folder=$(mktemp -d)
trap 'rm -rf "$folder"' EXIT
cd "$folder"

# The old feed: settings by site 3, in the form of single operations.
size=${3:-20000}
printf 'MFD1' > old
printf '%b' "$(awk -v size="$size" 'BEGIN {
  for (i = 1; i <= size; i++)
    printf "\\x03\\x00\\x00\\x00\\x00\\x00\\x00\\x%02x\\x%02x\\x00\\x03\\x01\\x00\\x00\\x00\\x0c", int(i / 256), i % 256
}')" >> old
printf 'insert 3 0 r"x"\nshow 3\n' > input
printf 'ok %d.3\ncopy r"x"\n' $((size + 1)) > answers

# The new feed, by runs that are left alone, of which the shortest counts.
least=0
for ((i = 0; i < 5; i++)); do
  rm -f a.feed.last
  cp old a.feed
  start=${EPOCHREALTIME/./}
  "$program" desk a.feed --site 3 < input > written
  length=$((${EPOCHREALTIME/./} - start))
  least=$((least == 0 || length < least ? length : least))
  cmp written answers
  printf 'site 3 %d\n' $((size + 1)) | cmp - a.feed.last
done
cp a.feed.last last
cp a.feed new
if cmp -s old new; then
  echo "the feed was not stored" >&2
  exit 1
fi

rounds=${2:-150}
olds=0
news=0
lasts=0
tell() {
  echo "killed $((olds + news)) runs: the old feed stands after $olds, the new one after $news, with FEED.last after $lasts"
}
trap 'tell; exit 1' TERM
for ((i = 0; i < rounds; i++)); do
  rm -f a.feed.last a.feed.last.new
  cp old a.feed
  "$program" desk a.feed --site 3 < input > written 2> /dev/null &
  run=$!
  moment=$((least * (i * 7919 % rounds) * 3 / rounds))
  sleep "$((moment / 1000000)).$(printf '%06d' $((moment % 1000000)))"
  kill -9 "$run" 2> /dev/null || true
  wait "$run" 2> /dev/null || true
  if cmp -s a.feed old; then
    olds=$((olds + 1))
    if [ -e a.feed.last ]; then
      echo "the old feed stands, and FEED.last is that of the new one (round $i)" >&2
      exit 1
    fi
  elif cmp -s a.feed new; then
    news=$((news + 1))
  else
    echo "neither the old feed nor the new one stands after a kill (round $i)" >&2
    exit 1
  fi
  if [ -e a.feed.last ]; then
    cmp a.feed.last last
    lasts=$((lasts + 1))
  fi
done

# What a killed run left behind does no harm.
cp old a.feed
rm -f a.feed.last
printf 'left over' > a.feed.new
printf 'site 3 99999' > a.feed.last.new
"$program" desk a.feed --site 3 < input > written
cmp a.feed new
cmp a.feed.last last
[ ! -e a.feed.last.new ]
tell
if ((olds == 0 || news == 0)); then
  echo "the kills came too early or too late" >&2
  exit 1
fi
