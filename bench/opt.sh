#!/bin/sh
# Times `opt`: rule files of 1, 16 and 256 rules on a program of 1,024 statements, and 16 rules on
# programs of 256, 512 and 1,024 statements. It is no part of the gate.
set -eu
rhodium=$(dirname "$(readlink -f "$0")")/../bin/rhodium
room=$(mktemp -d)
trap 'rm -rf "$room"' EXIT

# So many rules, none of which but the last is about a statement of the programs.
rules() {
    awk -v n="$1" 'BEGIN {
        for (i = 1; i <= n; i++)
            printf "rule r%d(var X, var A) { X := A + %d => transform X := %d + A }\n", i, n - i, n - i
    }'
}

# A procedure of so many statements.
program() {
    awk -v n="$1" 'BEGIN {
        printf "main(a) var y {\n"
        for (i = 1; i < n; i++) printf "y := a + 0;\n"
        printf "return y;\n}\n"
    }'
}

# The seconds of a run on so many rules and so many statements.
timed() {
    rules "$1" >"$room/rules"
    program "$2" >"$room/program"
    start=$(date +%s%N)
    "$rhodium" opt "$room/rules" "$room/program" >"$room/out"
    end=$(date +%s%N)
    awk -v rules="$1" -v statements="$2" -v ns=$((end - start)) \
        'BEGIN { printf "%4d rules, %5d statements: %8.3f s\n", rules, statements, ns / 1e9 }'
}

timed 1 1 >"$room/first"
for rules in 1 16 256; do timed "$rules" 1024; done
for statements in 256 512 1024; do timed 16 "$statements"; done
