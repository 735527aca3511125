#!/bin/sh
# Times the prover: rules whose facts have more and more atoms over different numbers, a rule file with as
# many of them as its limits allow, a rule file of 256 sums, and an obligation of 512 terms that is made
# to be hard, with up to four splits. It is no part of the gate.
set -eu
top=$(dirname "$(dirname "$(readlink -f "$0")")")
room=$(mktemp -d)
trap 'rm -rf "$room"' EXIT
cd "$top/crates/rh_bench"

# So many facts of four atoms `(n + m) == (p + q)`, all of whose numbers differ, and so many rules, each
# with the next so many facts for premises.
atoms() {
    awk -v facts="$1" -v rules="$2" -v premises="$3" 'BEGIN {
        for (f = 0; f < facts; f++) {
            printf "fact f%d(var X) means ", f
            for (a = 0; a < 4; a++)
                printf "%s(%d + %d) == (%d + %d)", a ? " and " : "", 100 + 16 * f + 4 * a, 101 + 16 * f + 4 * a, 102 + 16 * f + 4 * a, 103 + 16 * f + 4 * a
            printf ";\n"
        }
        for (r = 0; r < rules; r++) {
            printf "rule r%d(var X) { skip when ", r
            for (p = 0; p < premises; p++) printf "%sf%d(X) @ in", p ? ", " : "", (r + p) % facts
            printf " => f%d(X) @ out }\n", r % facts
        }
    }' >"$room/rules"
    echo "$2 rules with $((4 * $3)) atoms, $(wc -c <"$room/rules") bytes"
    rt run -- rules "$room/rules"
}

# So many rules on sums.
sums() {
    awk -v n="$1" 'BEGIN {
        for (i = 1; i <= n; i++)
            printf "rule r%d(var X, var A) { X := A + %d => transform X := %d + A }\n", i, n - i, n - i
    }' >"$room/rules"
    echo "$1 sums"
    rt run -- rules "$room/rules"
}

for premises in 1 2 4 6 8; do atoms 8 1 "$premises"; done
atoms 64 256 7
sums 256
for splits in 0 1 2 3 4; do rt run -- hard "$splits"; done
