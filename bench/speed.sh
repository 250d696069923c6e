#!/usr/bin/env bash
# Instructions (callgrind) and time of a usage report that closes nothing, on the proved session and on the hand-written one:
# the same list of calls in one program, the proved one through its static library.
#   (cd crates/batch_c && rt lib) && cargo build --release --manifest-path bench/Cargo.toml && bench/speed.sh
set -euo pipefail
cd "$(dirname "$0")/.."
bench=bench/target/release/bench
[ -x "$bench" ] || { echo "$bench is not built"; exit 1; }
nanoseconds() { local start end; start=$(date +%s%N); "$bench" "$@" > /dev/null; end=$(date +%s%N); echo $((end - start)); }
instructions() { valgrind --tool=callgrind --callgrind-out-file=/dev/null "$bench" "$@" 2>&1 | grep -oE 'refs: +[0-9,]+' | tr -cd '0-9'; }
for lines in 1 8 32; do
  none=$(instructions none "$lines" 100000)
  idle=$(nanoseconds none "$lines" 20000000)
  for way in proved plain; do
    [ "$("$bench" $way "$lines" 1000)" = $((lines + 1000)) ] || { echo "$way: not all calls were accepted"; exit 1; }
    count=$(( ($(instructions $way "$lines" 100000) - none) / 100000 ))
    time=$(( ($(nanoseconds $way "$lines" 20000000) - idle) / 20000000 ))
    echo "$way, $lines lines: $count instructions and $time ns a report"
  done
done
