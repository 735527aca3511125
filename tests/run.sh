#!/bin/sh
# Runs the cases of the command line: those that are named, or all of tests/cases.
#
#     tests/run.sh [CASE..]
#
# A case is a folder. The command runs in a copy of it, with the words of its file words, one a line.
# These files say what is wanted; where one is not there, nothing is, and status 0:
#
#     stdout  standard output, byte for byte
#     stderr  standard error, byte for byte
#     status  the exit status
#
# These say how the command is run:
#
#     output  what standard output is: a device, as /dev/full, or "closed pipe", which nobody reads
#     copies  lines FILE PATH: FILE is a copy of what stands at PATH in the repository
#     pad     lines FILE SIZE: spaces are put behind FILE until it has SIZE bytes
#
# All others are there for the command to read.
#
# The last line is "N passed, M failed". The status is 0 where all passed, 1 where some failed, and 2
# where nothing could be tried. The variable RHODIUM names another program than bin/rhodium.

here=$(dirname "$(readlink -f "$0")")
rhodium=$(readlink -f "${RHODIUM:-$here/../bin/rhodium}")
room=$(mktemp -d) || exit 2
trap 'rm -rf "$room"' EXIT
trap 'exit 2' HUP INT TERM

# Brings the files that the case's copies names.
bring() {
    while read -r file path; do
        cp "$here/../$path" "$file" || return
    done <copies
}

# Puts spaces behind the files that the case's pad names.
pad() {
    while read -r file size; do
        lacking=$((size - $(wc -c <"$file")))
        [ $lacking -ge 0 ] || return
        printf "%${lacking}s" '' >>"$file" || return
    done <pad
}

# Opens descriptor 3 as the standard output that the case's output names.
open_output() {
    output=../given/stdout
    [ ! -f output ] || output=$(cat output)
    if [ "$output" = 'closed pipe' ]; then
        # A pipe can be opened for writing only while it has a reader: descriptor 4, until it is closed.
        output=../given/pipe
        mkfifo "$output" && exec 4<>"$output" 3>"$output" 4>&-
    else
        exec 3>"$output"
    fi
}

# Runs the command in the copy, and keeps what it writes and its status.
run() {
    open_output || return
    set --
    while IFS= read -r word || [ -n "$word" ]; do
        set -- "$@" "$word"
    done <words || return
    "$rhodium" "$@" </dev/null >&3 3>&- 2>../given/stderr
    echo $? >../given/status
}

# Tries one case, in a shell of its own, and shows where what is given differs from what is wanted.
try() {
    mkdir "$room/$1" && cd "$room/$1" && mkdir given && cp -R "$here/cases/$1" wanted || return
    cd wanted && { [ ! -f copies ] || bring; } && { [ ! -f pad ] || pad; } && run && cd .. || return
    touch wanted/stdout wanted/stderr given/stdout
    [ -f wanted/status ] || echo 0 >wanted/status
    as_wanted=0
    for part in stdout stderr status; do
        diff -u "wanted/$part" "given/$part" || as_wanted=1
    done
    return $as_wanted
}

# Built beforehand where it is missing, so that no case sees what the build says.
"$rhodium" opt "$here/../examples/add_zero.rules" "$here/../examples/straight.il" >/dev/null
[ $? -lt 126 ] || exit 2

if [ $# -eq 0 ]; then
    cd "$here/cases" && set -- * || exit 2
fi
passed=0
failed=0
for name in "$@"; do
    if (try "$name") >"$room/why" 2>&1; then
        passed=$((passed + 1))
    else
        failed=$((failed + 1))
        echo "FAILED $name"
        cat "$room/why"
    fi
done
echo "$passed passed, $failed failed"
[ "$failed" -eq 0 ]
