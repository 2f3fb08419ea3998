#!/bin/sh
# Counts the instructions of `aeth slots`, above those of a run that ends in `usage`, for full and
# half-full tables of up to 128 slots. It needs valgrind. The counts are the same at each run on one machine.
set -eu

home=$(dirname -- "$(dirname -- "$(readlink -f -- "$0")")")
. "$home/bench/instructions.sh"

usage=$(instructions)
printf '%4s  %-6s  %4s  %4s  %12s\n' SIZE FREE GAP NEED INSTRUCTIONS
for size in 8 16 32 64 128; do
    for step in 1 2; do
        free=$(seq -s , 0 "$step" $((size - 1)))
        name=every
        [ "$step" = 1 ] || name=second
        for gap in 1 2 7 "$size"; do
            for need in 1 $((size / 2)); do
                count=$(($(instructions slots "$size" "$need" "$gap" "$free") - usage))
                printf '%4d  %-6s  %4d  %4d  %12d\n' "$size" "$name" "$gap" "$need" "$count"
            done
        done
    done
done
