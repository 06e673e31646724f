#!/usr/bin/env bash
# Each planted fault must be noticed: a run with it ends with status 1 and failures. As many runs at a time as there are cores.
set -eu
cd "$(dirname "$0")"
cargo build --quiet --release --offline
export run=${CARGO_TARGET_DIR:-target}/release/differential
count=$($run --faults | wc -l)

# Prints the fault's line if its run ends otherwise.
try() {
    local status=0 out
    out=$($run 40000 --worlds 0 --plant "$1") || status=$?
    [ $status = 1 ] || grep '^planted' <<<"$out" || echo "fault $1, status $status"
}
export -f try
missed=$(seq "$count" | xargs -P "$(nproc)" -I{} bash -c 'try {}')

failed=$(grep -c . <<<"$missed" || true)
[ -z "$missed" ] || sed 's/^/not noticed: /' <<<"$missed"
echo "$((count - failed)) passed, $failed failed"
[ "$failed" = 0 ]
