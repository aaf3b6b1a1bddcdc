#!/usr/bin/env bash
# What a package costs against one of half its size, in instructions that callgrind (Debian's package valgrind) counts
# over tests of `profile_install`: each makes a package and reads it. Two have an element of no effect; the others have
# steps that make a file of one byte each, and of these the cost of a package without a step is taken off. Ends with
# status 1 where twice the size costs more than 2.5 times as much.
set -eu
top=$(cd "$(dirname "${BASH_SOURCE[0]}")/.." && pwd)
command -v valgrind >/dev/null || { echo "there is no valgrind" >&2; exit 2; }
cd "$top/crates/profile_install"
rt test >/dev/null

# The instructions of one test.
count() {
  valgrind --tool=callgrind --callgrind-out-file=/dev/null \
    out/profile_install_tests "tests::large::$1" 2>&1 >/dev/null | sed -n 's/.*Collected : *//p'
}

above=0
# The name of a measure, its instructions and bytes, and the instructions at half the size.
measure() {
  local name=$1 cost=$2 bytes=$3 half=$4
  printf '%-32s %12d, %4d a byte, %3d%% of half the size\n' "$name" "$cost" $((cost / bytes)) $((100 * cost / half))
  if [ $((2 * cost)) -gt $((5 * half)) ]; then above=1; fi
}

half=$(count half_as_many_bytes_of_no_effect_are_taken)
measure '1,000,000 bytes of no effect' "$(count a_million_bytes_of_no_effect_are_taken)" 1000000 "$half"
start=$(count no_steps_make_no_files)
small=$(($(count steps_make_as_many_files) - start))
twice=$(($(count twice_as_many_steps_make_as_many_files) - start))
large=$(($(count four_times_as_many_steps_make_as_many_files) - start))
measure '950 steps, as many files' "$twice" 18050 "$small"
measure '1,900 steps, as many files' "$large" 36100 "$twice"
exit "$above"
