#!/bin/sh
# Prints the seconds, the peak memory and the instructions of `aeth check` for large plans, and those of
# `aeth app` for the same chip and application: what is read before the plan. The files are those of
# `plans.py`, whose head says what each is. It needs valgrind, GNU time and Python 3. The instructions are
# about the same at each run on one machine.
set -eu

home=$(dirname -- "$(dirname -- "$(readlink -f -- "$0")")")
. "$home/bench/instructions.sh"
. "$home/bench/files.sh"

python3 "$home/bench/plans.py" "$folder"

# A chip, an application, and plans for these.
measure_plans() {
    chip=$1
    app=$2
    shift 2
    measure "$app" app "$folder/$chip" "$folder/$app"
    for plan in "$@"; do
        measure "$plan" check "$folder/$chip" "$folder/$app" "$folder/$plan"
    done
}

head_line
measure_plans chip app plan_twice plan
measure_plans chip128 app plan128_twice plan128
measure_plans chip apart apart_plan_twice apart_plan meeting_plan lines
measure_plans chip chained chained_plan_twice chained_plan
