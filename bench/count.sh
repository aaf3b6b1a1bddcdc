# What the scripts that count instructions share: the proved program, and callgrind (Debian's package valgrind).
top=$(cd "$(dirname "${BASH_SOURCE[0]}")/.." && pwd)
program=$top/crates/card_run/out/card_run
command -v valgrind >/dev/null || { echo "there is no valgrind" >&2; exit 2; }
"$top/card_run" demo </dev/null

# The instructions of the program on the script that standard input has.
count() {
  valgrind --tool=callgrind --callgrind-out-file=/dev/null "$program" demo 2>&1 >/dev/null | sed -n 's/.*Collected : *//p'
}

# So many lines of a script: these commands in turn.
script() {
  local lines=$1 line=0
  shift
  while [ "$line" -lt "$lines" ]; do
    printf 'port 1: %s\n' "$@"
    line=$((line + $#))
  done
}
