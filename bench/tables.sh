#!/bin/sh
# Prints the seconds, the peak memory and the instructions of `aeth tables` for a use case of large designs,
# and of `aeth check` for the same files: what is read and judged before the tables. For the first design it
# prints the ratio of the instructions of `tables` to those of a peer: the same tables in plain optimised
# Rust, on one thread, with bit masks, and without any proof. The files are those of `designs.py`, whose head
# says what each is, and the plans that `aeth allocate` prints for these. It needs valgrind, GNU time and
# Python 3. The instructions are about the same at each run on one machine.
set -eu

home=$(dirname -- "$(dirname -- "$(readlink -f -- "$0")")")
. "$home/bench/instructions.sh"
. "$home/bench/files.sh"

python3 "$home/bench/designs.py" "$folder"

# A chip and an application: the plan of the allocation, and the tables of a use case.
measure_tables() {
    "$program" allocate "$folder/$1" "$folder/$2" >"$folder/plan"
    measure "$1 check" check "$folder/$1" "$folder/$2" "$folder/plan"
    measure "$1 $3" tables "$folder/$1" "$folder/$2" "$folder/plan" "$3"
}

head_line
measure_tables chip app_hops u0
peer=45753233
printf 'of the peer: %d.%02d\n' $((all / peer)) $((100 * (all % peer) / peer))
measure_tables chip128 app_hops u0
