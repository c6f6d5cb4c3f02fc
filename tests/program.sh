#!/usr/bin/env bash
# The program's statuses and fault lines.
# Use: tests/program.sh PROGRAM
set -u
program=$(realpath "$1")
row=$(realpath "$(dirname "$0")/rows/two_rooms")
scratch=$(mktemp -d)
trap 'rm -rf "$scratch"' EXIT
cd "$scratch" || exit 1
cp "$row/source.i7" source.i7
passed=0
failed=0

# Counts a case: its name, the status that is wanted, the line on standard error that is wanted.
want() {
  if [ "$status" = "$2" ] && [ "$(cat err)" = "$3" ]; then
    passed=$((passed + 1))
  else
    failed=$((failed + 1))
    echo "program: $1: status $status, $(head -c 200 err)"
  fi
}

# Runs the program on these words.
run() {
  "$program" "$@" >out 2>err
  status=$?
}

# words
for words in "" "frob" "run" "compile source.i7" "run source.i7 more" "play --loud source.i7" "--help"; do
  run $words </dev/null
  text=$(cat err)
  [ -n "$text" ] && [ ! -s out ] || text=missing
  want "words: $words" 5 "$text"
done

# files
run run none.i7 </dev/null
want "a source that isn't there" 3 "none.i7: cannot be read"
run play none </dev/null
want "a story that isn't there" 3 "none: cannot be read"
run compile source.i7 nowhere/story </dev/null
want "a story that can't be written" 3 "nowhere/story: cannot be written"
run compile source.i7 story </dev/null
want "compiling" 0 ""

# sources
printf 'The Hall is a room.\nThe Hall frobnicates.\n' >bad.i7
run run bad.i7 </dev/null
want "a source that isn't understood" 1 "bad.i7:2: C5 NotUnderstood"
head -c 262145 /dev/zero | tr '\0' ' ' >long.i7
run run long.i7 </dev/null
want "a source that is too long" 1 "long.i7:1: C1 TooLong"

# a story of another version
(head -c 4 story; printf '\0\11'; tail -c +7 story) >version
run play version </dev/null
want "version 9" 2 "version: L2 BadVersion"

echo "program: $passed passed, $failed failed"
[ $failed = 0 ]
