#!/bin/sh
# Runs each workload of some folders over a device in memory, and compares its output, messages and status with the
# files beside it. One without .err writes no message, one without .status ends with 0, and .args has the words of the
# command line, one a line, where these aren't `run` alone.
set -eu

if [ $# -lt 2 ]; then
    echo "usage: cases/check.sh PROGRAM FOLDER.." >&2
    exit 2
fi
program=$1
shift
room=${TMPDIR:-/tmp}/keel-cases-$$
mkdir -m 700 "$room"
trap 'rm -rf "$room"' EXIT
trap 'exit 1' HUP INT TERM
: >"$room/nothing"
echo run >"$room/run"

# Runs the program on the input, with the words of a file.
run_words() {
    set --
    while IFS= read -r word; do
        set -- "$@" "$word"
    done <"$words"
    "$program" "$@" <"$input" >"$room/out" 2>"$room/err"
}

passed=0
failed=0
for folder; do
    for input in "$folder"/*.keel; do
        name=${input%.keel}
        words=$room/run
        if [ -e "$name.args" ]; then words=$name.args; fi
        messages=$room/nothing
        if [ -e "$name.err" ]; then messages=$name.err; fi
        wanted=0
        if [ -e "$name.status" ]; then wanted=$(cat "$name.status"); fi

        status=0
        run_words || status=$?

        differs=
        cmp -s "$room/out" "$name.out" || differs="$differs output"
        cmp -s "$room/err" "$messages" || differs="$differs messages"
        [ "$status" = "$wanted" ] || differs="$differs status"
        if [ -z "$differs" ]; then
            passed=$((passed + 1))
        else
            echo "$name: differs in$differs"
            failed=$((failed + 1))
        fi
    done
done
echo "$passed passed, $failed failed"
[ "$failed" -eq 0 ]
