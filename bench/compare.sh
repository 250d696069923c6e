#!/usr/bin/env bash
# Runs random call lists on the proved session (the program replay) and on the hand-written one, and compares what they print.
# usage: bench/compare.sh FIRST LAST CALLS
# Before it: (cd crates/batch_c && rt lib) && (cd crates/replay && rt run < stdin) && cargo build --release --manifest-path bench/Cargo.toml
set -euo pipefail
cd "$(dirname "$0")/.."
plain=bench/target/release/bench
proved=crates/replay/out/replay
for program in "$plain" "$proved"; do
  [ -x "$program" ] || { echo "$program is not built"; exit 1; }
done
work=$(mktemp -d)
trap 'rm -r "$work"' EXIT
printed=0
for seed in $(seq "$1" "$2"); do
  "$plain" random "$seed" "$3" > "$work/list" || { echo "seed $seed: no list"; exit 1; }
  "$proved" < "$work/list" > "$work/proved" || { echo "seed $seed: the proved one fails"; exit 1; }
  "$plain" replay < "$work/list" > "$work/plain" || { echo "seed $seed: the hand-written one fails"; exit 1; }
  [ -s "$work/proved" ] || { echo "seed $seed: nothing was printed"; exit 1; }
  cmp -s "$work/proved" "$work/plain" || { echo "seed $seed differs"; diff "$work/proved" "$work/plain" | head -5; exit 1; }
  printed=$((printed + $(wc -l < "$work/proved")))
done
echo "lists $1 to $2 of $3 calls: $printed lines, all equal"
