#!/usr/bin/env bash
# The bench beside the second program's bench, in one run: a load of order and ask lines, rounds interleaved, user time. The ratio is the
# second program's time over ours: above 1 is faster than it.
set -euo pipefail
cd "$(dirname "$0")/.."
lines=${1:-100000}
rounds=${2:-7}

(cd crates/bench && rt run < /dev/null) >&2
cargo build --quiet --release --offline --manifest-path reference/Cargo.toml
second=${CARGO_TARGET_DIR:-reference/target}/release/reference
work=$(mktemp -d)
trap 'rm -rf "$work"' EXIT
"$second" bench-load "$lines" > "$work/load"

TIMEFORMAT=%U
for _ in $(seq "$rounds"); do
    { time crates/bench/out/bench < "$work/load" > "$work/ours"; } 2>> "$work/ours.times"
    { time "$second" bench < "$work/load" > "$work/theirs"; } 2>> "$work/theirs.times"
    cmp "$work/ours" "$work/theirs"
done
median() { sort -n "$1" | sed -n "$(( (rounds + 1) / 2 ))p"; }
ours=$(median "$work/ours.times")
theirs=$(median "$work/theirs.times")
echo "$lines order and ask lines, median of $rounds rounds: bench $ours s, second program $theirs s"
awk "BEGIN { printf \"ratio %.2f\n\", $theirs / $ours }"
