#!/bin/sh
# Prints the seconds, the peak memory and the instructions of `aeth allocate` for large designs, and after
# each the ratio of its instructions to those of a peer: the same allocation in plain optimised Rust, on one
# thread, with bit masks and a pruned search, and without any proof. The files are those of `designs.py`,
# whose head says what each is. It needs valgrind, GNU time and Python 3. The instructions are about the same
# at each run on one machine.
set -eu

home=$(dirname -- "$(dirname -- "$(readlink -f -- "$0")")")
. "$home/bench/instructions.sh"
. "$home/bench/files.sh"

python3 "$home/bench/designs.py" "$folder"

# A chip, an application, and the instructions of the peer for these.
measure_design() {
    measure "$1 $2" allocate "$folder/$1" "$folder/$2"
    printf 'of the peer: %d.%02d\n' $((all / $3)) $((100 * (all % $3) / $3))
}

head_line
measure_design chip app_hops 77274183
measure_design chip app_pressure 224178667
measure_design chip128 app_hops 91297219
measure_design chip128 app_pressure 239569263
measure_design chip app_stress 618874297
measure_design chip_random app_stress 14471703007
