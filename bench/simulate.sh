#!/bin/sh
# Prints the seconds, the peak memory and the instructions of `aeth simulate` for long runs of large designs, and
# the ratio of the instructions to those of a peer: the same runs in plain optimised Rust, on one thread, and without
# any proof. The files are those of `inputs.py`, whose head says what each is, and the plans that `aeth allocate`
# prints for these. It needs valgrind, GNU time and Python 3. A run of a million cycles takes minutes under valgrind:
# words after the name of the script choose runs by their names. The instructions are about the same at each run on
# one machine.
set -eu

home=$(dirname -- "$(dirname -- "$(readlink -f -- "$0")")")
. "$home/bench/instructions.sh"
. "$home/bench/files.sh"

python3 "$home/bench/inputs.py" "$folder"
"$program" allocate "$folder/chip" "$folder/app_hops" >"$folder/plan"
"$program" allocate "$folder/chip128" "$folder/app_hops" >"$folder/plan128"

# Whether a run is chosen by the words of the script.
is_chosen() {
    name=$1
    shift
    [ $# -eq 0 ] && return 0
    for word in "$@"; do [ "$word" = "$name" ] && return 0; done
    return 1
}

# A run by its name: the instructions of the peer, the chip and the plan, the three traces, and the cycles.
measure_run() {
    name=$1 peer=$2
    measure "$name" simulate "$folder/$3" "$folder/app_hops" "$folder/$4" "$folder/$5" "$folder/$6" "$folder/$7" "$8"
    printf 'of the peer: %d.%02d\n' $((all / peer)) $((100 * (all % peer) / peer))
}

head_line
is_chosen short "$@" && measure_run short 99711593 chip plan words_20k receivers switches_1024 20000
is_chosen idle "$@" && measure_run idle 50196354 chip plan words_none receivers_none switches_one 1000000
is_chosen sparse "$@" && measure_run sparse 2319847085 chip plan words_sparse receivers switches_1024 1000000
is_chosen dense "$@" && measure_run dense 2019582625 chip plan words_dense receivers_none switches_one 1000000
is_chosen delays "$@" && measure_run delays 2193411327 chip128 plan128 words_sparse receivers switches_one 1000000
exit 0
