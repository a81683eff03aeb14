#!/bin/sh
# Speed: the verified programs beside a hand-written Rust baseline of the same search. Builds the baseline, runs both on the
# cards of cards.txt and on tables of 2^10 to 2^22 slots, and prints the tables of docs/SPEED.md.
#
#     run.sh [CARDS [SLOTS]]      PROGRAMS=DIR says where NAME/out/NAME of search_lab and cards are (../crates; `rt run` in the folder of each builds it)
set -eu
here=$(cd "$(dirname "$0")" && pwd)
cargo build --release --quiet --manifest-path "$here/Cargo.toml"
exec python3 "$here/compare.py" "$here/target/release/baseline" "${PROGRAMS:-$here/../crates}" "${1:-$here/cards.txt}" "${2:-1000003}"
