#!/usr/bin/env bash
# A share of the runs by which the built program is compared with the independent model of `tests/model`, always the same ones; and
# all those in which a system call is refused, at each read and write in turn, a device is odd, a user waits, or memory is little.
# `tests/run model` makes the whole comparison.
#
#     tests/model.sh [PROGRAM]
#
# If there is no python3 nothing is compared.
set -u
# shellcheck source=tests/shared
. "$(dirname "$0")/shared"
program=$(program_of "$@") || exit 2
if missing python3; then skips_all "there is no python3 here, so nothing is compared with the model"; fi
part python3 "$(dirname "$0")/model/against.py" "$program" 1 0.4
for kinds in calls devices,growing,memory,gone,waiting,words,files; do part python3 "$(dirname "$0")/model/hostile.py" "$program" 1 0.02 $kinds; done
parts_end
ended
