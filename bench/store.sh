#!/usr/bin/env bash
# Instructions that the store in two banks costs, over a flash in memory: a commit of a two-byte update, and the opening
# of a bank full of them against a loop that reads the same rows one by one and each body once. Callgrind (Debian's
# package valgrind) counts them in the test that fills a bank, so that the figures aren't the machine's. Then the commits
# a second, by that test's time without the counting. Ends with status 1 where a figure is above the one wanted.
set -eu
command -v valgrind >/dev/null || { echo "there is no valgrind" >&2; exit 2; }
crate=$(cd "$(dirname "${BASH_SOURCE[0]}")/.." && pwd)/crates/card_journal
tests=$crate/out/card_journal_tests
(cd "$crate" && rt test >/dev/null)
name=tests::filling::a_full_bank_is_read_and_switched
updates=276688
counted=$(mktemp)
trap 'rm -f "$counted"' EXIT
valgrind --tool=callgrind --callgrind-out-file="$counted" "$tests" "$name" >/dev/null 2>&1

# The instructions of all calls of a function of that test, with all that they call.
count() {
  callgrind_annotate --inclusive=yes --threshold=100 "$counted" | grep -m 1 "tests::filling::$1" |
    sed 's/^ *\([0-9,]*\) .*/\1/; s/,//g'
}

above=0
commit=$(($(count commit_times) / updates))
printf 'a commit of a two-byte update: %d instructions, wanted at most 3000\n' "$commit"
if [ "$commit" -gt 3000 ]; then above=1; fi
opening=$(count open_full)
reading=$(count read_rows)
printf 'opening a bank of %d of them: %d instructions a row, %d to read it; wanted at most 3 times as many\n' \
  "$updates" $((opening / updates)) $((reading / updates))
if [ "$opening" -gt $((3 * reading)) ]; then above=1; fi
python3 - "$tests" "$name" "$updates" <<'PYTHON'
import subprocess, sys, time
best = float("inf")
for _ in range(5):
    before = time.perf_counter()
    subprocess.run(sys.argv[1:3], check=True, stdout=subprocess.DEVNULL)
    best = min(best, time.perf_counter() - before)
print(f"filling the bank, reading and opening it: {best:.2f} s, so at least {int(sys.argv[3]) / best:,.0f} commits a second")
PYTHON
exit "$above"
