#!/usr/bin/env bash
# Makes a card with three ports in a temporary folder, and lists it.
set -eu
top=$(cd "$(dirname "${BASH_SOURCE[0]}")/.." && pwd)
folder=$(mktemp -d)
trap 'rm -rf "$folder"' EXIT
"$top/card_run" new "$folder/c.img" --mode A1 --ports 3 --eid 89049032000000000000000000000001
"$top/card_run" list "$folder/c.img"
