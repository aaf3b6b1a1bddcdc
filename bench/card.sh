#!/usr/bin/env bash
# What a command costs on a large card against the same on the sample card of six files, in instructions that callgrind
# counts. The large card is made from the sample card by CREATE FILE in the script: 16 directories of 118 files each,
# with the sample files 1,910. The cost of making it is taken off. Ends with status 1 where the same command costs more
# than 1.5 times as much.
set -eu
. "$(dirname "${BASH_SOURCE[0]}")/count.sh"
lines=2000

# With key 0A the access rules of the MF come to allow everything; then the files are made, each of one byte.
large_card() {
  local directory file
  printf 'port 1: %s\n' 0020000A083838383838383838 00A4000C022F06 \
    00DC01042A80017F9000840232D49000FFFFFFFFFFFFFFFFFFFFFFFFFFFFFFFFFFFFFFFFFFFFFFFFFFFFFFFFFFFFFF
  for directory in $(seq 1 16); do
    printf 'port 1: 00A4000C023F00\n'
    printf 'port 1: 00E000001262108202782183027F%02X8A01058B032F0601\n' "$directory"
    for file in $(seq 1 118); do
      printf 'port 1: 00E000001862168202412183026F%02X8A01058B032F0601800200018800\n' "$file"
    done
  done
  printf 'port 1: 00A4000C023F00\n'
}

empty=$(count </dev/null)
made=$(large_card | count)
above=0
# The name of a measure, and the commands that are sent in turn on both cards.
measure() {
  local name=$1 small large
  shift
  small=$((($(script "$lines" "$@" | count) - empty) / lines))
  large=$((($({ large_card; script "$lines" "$@"; } | count) - made) / lines))
  printf '%-44s %6d on 6 files, %6d on 1,910\n' "$name" "$small" "$large"
  if [ $((2 * large)) -gt $((3 * small)) ]; then above=1; fi
}
# The name of a measure, and commands for the large card alone.
measure_large() {
  local name=$1 large
  shift
  large=$((($({ large_card; script "$lines" "$@"; } | count) - made) / lines))
  printf '%-44s %6s               %6d on 1,910\n' "$name" '' "$large"
}

echo "instructions a command:"
measure 'SELECT and READ BINARY in turn' 00A4000C022FE2 00B000000A
measure 'SELECT with control parameters' 00A40004022FE200
measure 'SELECT, UPDATE BINARY and READ BINARY' 00A4000C022F05 00D60000026465 00B0000002
measure 'SEARCH RECORD' 00A4000C022F06 00A2010402900000
measure_large 'SELECT by path of the last file' 00A4080C047F106F76
exit "$above"
