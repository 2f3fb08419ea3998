#!/bin/sh
# Counts the instructions of `aeth server`, above those of a run that ends in `usage`, for tables of 64
# and of 128 slots. It needs valgrind. The counts are the same at each run on one machine.
set -eu

home=$(dirname -- "$(dirname -- "$(readlink -f -- "$0")")")
. "$home/bench/instructions.sh"

usage=$(instructions)
printf '%5s  %5s  %4s  %12s\n' SIZE SLOTS NEED INSTRUCTIONS
for size in 64 128; do
    for step in "$size" 8 2 1; do
        slots=$(seq -s , 0 "$step" $((size - 1)))
        for need in $(printf '%d\n' 1 $((size / step)) | sort -un); do
            count=$(($(instructions server "$size" "$need" 3 "$slots") - usage))
            printf '%5d  %5d  %4d  %12d\n' "$size" $((size / step)) "$need" "$count"
        done
    done
done
