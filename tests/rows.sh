#!/usr/bin/env bash
# Plays each row of tests/rows over the built program, once as a source and once as a compiled story:
#   source.i7    the source, or
#   sample       the name of the story of stories/ that is the source; and
#   commands     the typed lines, and
#   transcript   what must be written for them (with the commands echoed, unless `without_echo` is there), or
#   refusal      the line with which the source must be refused, with status 1
# Where a transcript or a refusal differs, the difference is printed.
# Use: tests/rows.sh [PROGRAM] [ROW]      the program is the built one, and the rows are all, where they aren't named
set -u
program=$(dirname "$0")/../crates/i7story/out/i7story
if [ -f "${1:-}" ] && [ -x "$1" ]; then
  program=$1
  shift
fi
program=$(realpath -m "$program")
rows=${1:-*}
cd "$(dirname "$0")/rows" || exit 1
if [ ! -x "$program" ] || ! ls -d $rows/ >/dev/null 2>&1; then
  echo "rows: there is no program $program, or no row $rows"
  exit 1
fi
scratch=$(mktemp -d)
trap 'rm -rf "$scratch"' EXIT
passed=0
failed=0

# Whether what the program printed is the row's; prints how it differs.
is_as_told() {
  diff -u "$1" "$2" | head -40
  cmp -s "$1" "$2"
}

count() {
  if [ "$1" = 0 ]; then passed=$((passed + 1)); else failed=$((failed + 1)); echo "rows: $2"; fi
}

for row in $rows/; do
  row=${row%/}
  if [ -f "$row/refusal" ]; then
    (cd "$row" && "$program" run source.i7) </dev/null >"$scratch/out" 2>"$scratch/err"
    status=$?
    is_as_told "$row/refusal" "$scratch/err" && [ $status = 1 ] && [ ! -s "$scratch/out" ]
    count $? "$row: the refusal"
    (cd "$row" && "$program" compile source.i7 "$scratch/none") </dev/null 2>"$scratch/err"
    status=$?
    is_as_told "$row/refusal" "$scratch/err" && [ $status = 1 ] && [ ! -e "$scratch/none" ]
    count $? "$row: the refusal of the compiler"
    continue
  fi
  source=$row/source.i7
  [ -f "$row/sample" ] && source=../../stories/$(cat "$row/sample")
  flag=--transcript
  [ -f "$row/without_echo" ] && flag=
  "$program" run "$source" $flag <"$row/commands" >"$scratch/out" 2>"$scratch/err"
  status=$?
  is_as_told "$row/transcript" "$scratch/out" && [ $status = 0 ] && [ ! -s "$scratch/err" ]
  count $? "$row: the transcript"
  "$program" compile "$source" "$scratch/story" </dev/null &&
    "$program" play "$scratch/story" $flag <"$row/commands" >"$scratch/out" 2>"$scratch/err" &&
    [ ! -s "$scratch/err" ] && is_as_told "$row/transcript" "$scratch/out"
  count $? "$row: the transcript of the compiled story"
done
echo "rows: $passed passed, $failed failed"
[ $failed = 0 ]
