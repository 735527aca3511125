#!/bin/sh
# Times the readers on a program and on a rule file of 128 KiB to 1 MiB, the shortest of five readings,
# with the ratio of each time to the one before it. It is no part of the gate.
set -eu
top=$(dirname "$(dirname "$(readlink -f "$0")")")
room=$(mktemp -d)
trap 'rm -rf "$room"' EXIT
cd "$top/crates/rh_bench"

# A program of 251 procedures, and spaces up to so many bytes.
program() {
    awk -v bytes="$1" 'BEGIN {
        n = int((int(bytes / 251) - 64) / 20)
        for (p = 0; p < 250; p++) {
            printf "p%d(a) var b, c {\n", p
            for (i = 0; i < n; i++) printf "  b := c + 1234;\n"
            printf "  return b;\n}\n"
        }
        printf "main(a) {\n  return a;\n}\n"
    }'
}

# As many facts, and rules that use them, as fit: more than there may be, so it is read up to its checks.
rules() {
    awk -v bytes="$1" 'BEGIN {
        n = int(bytes / 160)
        for (i = 0; i < n; i++) printf "fact f%d(var X, const C) means X == C;\n", i
        for (i = 0; i < n; i++)
            printf "rule r%d(var X, var A, const C) { X := A + 1 when f%d(A, C) @ in => transform X := C + 1 }\n", i, i
    }'
}

# The shortest time in microseconds of five readings of a file.
shortest() {
    for _ in 1 2 3 4 5; do rt run -- "$1" "$2" 2>&1 >/dev/null; done |
        awk '/ us to read/ { if (!best || $1 < best) best = $1 } END { print best }'
}

for kib in 128 256 512 1024; do
    for kind in program rules; do
        "$kind" $((kib * 1024)) >"$room/text"
        lacking=$((kib * 1024 - $(wc -c <"$room/text")))
        printf "%${lacking}s" '' >>"$room/text"
        echo "$kib $kind $(shortest "$kind" "$room/text")"
    done
done | awk '
    { printf "%5d KiB %-8s %8.3f ms", $1, $2, $3 / 1e3 }
    $2 in before { printf "; ratio %.2f", $3 / before[$2] }
    { printf "\n"; before[$2] = $3 }'
