#!/bin/sh
# Prints the instructions and the bytes of memory that reading a file of a million words takes a row, in runs of
# `aeth simulate` that end behind it, since there is no file of receivers. The instructions are those above a run on
# the same file that is refused at its header, with the share of the crate `csv`; the memory is the peak above that of
# a run on a file without words, less the file's own bytes. It needs python3, valgrind and GNU time. The instructions
# are about the same at each run on one machine.
set -eu

home=$(dirname -- "$(dirname -- "$(readlink -f -- "$0")")")
. "$home/bench/instructions.sh"
folder=$(mktemp -d)
trap 'rm -r "$folder"' EXIT
python3 "$home/bench/inputs.py" "$folder"
"$program" allocate "$folder/chip" "$folder/app_hops" >"$folder/plan"

rows=1000000
{ echo connection,side,cycle,value,; tail -n +2 "$folder/words_dense"; } >"$folder/words_refused"
size=$(wc -c <"$folder/words_dense")

# The peak of memory in kilobytes of a run on a file of words, its instructions, and those of the costliest function
# of `csv` that stands alone in the program: a lower bound on its share.
measure() {
    set -- simulate "$folder/chip" "$folder/app_hops" "$folder/plan" "$folder/$1" \
        "$folder/no_receivers" "$folder/no_switches" 1
    /usr/bin/time -q -f %M -o "$folder/time" "$program" "$@" >/dev/null 2>&1 || true
    valgrind --tool=callgrind --callgrind-out-file="$folder/profile" "$program" "$@" >/dev/null 2>&1 || true
    callgrind_annotate --inclusive=yes --threshold=100 "$folder/profile" | tr -d , >"$folder/costs"
    peak=$(cat "$folder/time")
    all=$(sed -n 's/^ *\([0-9]*\) .*PROGRAM TOTALS.*/\1/p' "$folder/costs")
    csv=$(sed -n 's/^ *\([0-9]*\) .*[: ]csv[a-z_]*::.*/\1/p' "$folder/costs" | head -n 1)
}

measure words_none
least=$peak
measure words_refused
begun=$all
measure words_dense
printf '%12s %5s %8s\n' INSTRUCTIONS CSV BYTES
printf '%12d %4d%% %8d\n' $(((all - begun) / rows)) $((100 * csv / (all - begun))) \
    $((((peak - least) * 1024 - size) / rows))
