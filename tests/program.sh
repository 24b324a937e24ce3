#!/usr/bin/env bash
# What the built program does as a user calls it: each run of tests/runs.tsv, input that it leaves alone, and signals. What a run of given words and
# input writes is proved, and tested in crates/niss_tests; tests/model/hostile.py tries streams, long words and limits of the system.
#
#     tests/program.sh [PROGRAM]
set -u
# shellcheck source=tests/shared
. "$(dirname "$0")/shared"
nissy=$(program_of "$@") || exit 2
if missing python3; then skips "the rows of runs, since there is no python3 here"; else add python3 "$(dirname "$0")/runs.py" "$nissy"; fi

with_the_rest() { # COMMAND..: what is left of the input follows what it wrote
    "$@"
    local status=$?
    cat
    return "$status"
}
for row in "invert R|0|R'\n|" "invert q|1||nissy: line 1, column 1: not a move\n" "count eofb 5 F B|0|length 2 solutions 4 nodes 75\n|" \
    "scramble 42 54 3 1|0|L' D' F'\n|" "solve htr 3 F|2||usage: nissy COMMAND [ARGUMENTS]\n"; do
    IFS='|' read -r words status out err <<< "$row"
    # shellcheck disable=SC2086 # words
    answers "$words leaves the input alone" "$status" "${out}left\n" "$err" with_the_rest "$nissy" $words <<< left
done
# The output goes into a file that may have one kilobyte; what bash says of the signal is no text of the program.
by_signal() { { (ulimit -f 1 && "$nissy" scramble 1 1 25 40 > limited); } 2> /dev/null; }
answers "a file that may not grow further, by SIGXFSZ" 153 "" "" by_signal

# COMMAND..: waits until it succeeds, a minute at most
comes_true() {
    local tries=1200
    until "$@"; do
        [ $((tries -= 1)) -gt 0 ] || return 1
        sleep 0.05
    done
}
has_answered() { [ "$(wc -l < answers)" -eq "$1" ]; } # LINES
# The program is stopped and goes on, as it does at SIGPIPE, and at last is ended, while it answers lines as they come.
stopped_and_ended() {
    local program status
    mkfifo lines
    # opened to be read too, so that no program that fails to begin is waited for
    exec 9<> lines
    : > answers
    "$nissy" invert <&9 >> answers &
    program=$!
    echo "R U" >&9
    comes_true has_answered 1
    kill -STOP "$program"
    echo "F2" >&9
    kill -CONT "$program"
    kill -PIPE "$program"
    comes_true has_answered 2
    kill -TERM "$program"
    wait "$program" 2> /dev/null
    status=$?
    exec 9>&-
    cat answers
    return "$status"
}
answers "a stopped job that goes on, SIGPIPE, and SIGTERM" 143 "U' R'\nF2\n" "" stopped_and_ended
ended
