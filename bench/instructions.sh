#!/usr/bin/env bash
# Instructions that one command of `card_run demo` costs, from its line in the script to its line of text. They are
# counted by callgrind, so that the figure isn't the machine's: over a script of 4,000 lines, less those of an empty
# script. Ends with status 1 where a figure is above the one wanted.
set -eu
. "$(dirname "${BASH_SOURCE[0]}")/count.sh"
lines=4000

empty=$(count </dev/null)
above=0
# The name of a measure, the figure wanted at most, and the commands that are sent in turn.
measure() {
  local name=$1 wanted=$2 found
  shift 2
  found=$((($(script "$lines" "$@" | count) - empty) / lines))
  printf '%-52s %6d, wanted at most %d\n' "$name" "$found" "$wanted"
  if [ "$found" -gt "$wanted" ]; then above=1; fi
}

echo "instructions a command:"
measure 'SELECT with P2 0C and READ BINARY in turn' 2500 00A4000C022FE2 00B000000A
measure 'an unknown instruction' 1400 0084000008
measure 'SELECT with control parameters' 3000 00A40004022FE200
# On EF PL and EF ARR of the sample card, with its PIN of key 01.
measure 'a mix: select, verify, update, read, records, search' 3500 \
  00A40004022F0500 002000010831323334FFFFFFFF 00D60000026465 00B0000002 \
  00A40004022F0600 00B201042A 00B202042A 00A2010402900000
exit "$above"
