#!/bin/sh
# compare.sh SEED N [--graphs] [--proofs]: N random cases, answered by the reference and by the verified program search_lab.
# The program is crates/search_lab/out/search_lab, which `rt run` in crates/search_lab builds. Exits with 0 where all answers agree.
set -eu
[ $# -ge 2 ] || { echo "usage: tools/compare.sh SEED N [--graphs] [--proofs]" >&2; exit 2; }
cd "$(dirname "$0")/.."
program=${SEARCH_LAB:-crates/search_lab/out/search_lab}
[ -x "$program" ] || { echo "no $program: run rt run in crates/search_lab first" >&2; exit 2; }
room=$(mktemp -d)
trap 'rm -rf "$room"' EXIT
python3 tools/make_cases.py "$@" >"$room/cases"
python3 tools/reference.py <"$room/cases" >"$room/reference"
"$program" <"$room/cases" >"$room/verified"
# each line that differs, from either side, is counted once
different=$(diff "$room/reference" "$room/verified" | grep -c '^<' || true)
extra=$(diff "$room/reference" "$room/verified" | grep -c '^>' || true)
[ "$extra" -le "$different" ] || different=$extra
plays=$(awk '$1 == "yes" || $1 == "no" { n += $3 } $1 == "out-of-budget" { n += $2 } END { print n + 0 }' "$room/reference")
echo "seed $1: $(wc -l <"$room/cases") cases, $(wc -l <"$room/reference") answers, $plays plays, $different differences"
if [ "$different" -ne 0 ]; then
    diff "$room/reference" "$room/verified" | head -20
    exit 1
fi
