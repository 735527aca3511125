#!/bin/sh
# Times one thread, and 1, 2 and 4 workers without and with hints, on systems in layers of about 100,000
# and of 5,000,000 bits, whose bits are lost forward and backward. It is no part of the gate.
set -eu
cd "$(dirname "$0")/../crates/rh_bench"
uptime
for size in "24 65" "25 3125"; do
    set -- $size
    echo "$1 layers of $2 words, $((64 * $1 * $2)) bits"
    rt run -- solver "$1" "$2"
done
