#!/bin/sh
# Prints the seconds, the peak memory and the instructions of `aeth app` for applications as large as the
# rules admit, over the largest chip: 256 cores, 512 connections, and 16 use cases that each have all
# connections. In the first one each use case is smooth with itself alone, and so a group of its own; in
# the second each is smooth with the next one, and all are one group. It needs valgrind and GNU time. The
# instructions are about the same at each run on one machine.
set -eu

home=$(dirname -- "$(dirname -- "$(readlink -f -- "$0")")")
. "$home/bench/instructions.sh"
. "$home/bench/files.sh"

# Connections from each core to the next one and to the one after that, so that each core has four.
connections() {
    for number in $(seq 0 511); do
        from=$((number % 256))
        to=$(((from + 1 + number / 256) % 256))
        printf '{name = "c%d", from = "k%d", to = "k%d", ' "$number" "$from" "$to"
        printf 'fwd = {words = 1, per = 64, latency = 100, delay = 0}, '
        printf 'back = {words = 0, per = 1, latency = 100, delay = 0}},\n'
    done
}

# Use cases with all connections, each smooth with the one that is so many further on.
use_cases() {
    every=$(seq -f '"c%g"' -s ', ' 0 511)
    for number in $(seq 0 15); do
        printf '{name = "u%d", connections = [%s], smooth = ["u%d"]},\n' \
            "$number" "$every" $(((number + $1) % 16))
    done
}

# The application whose use cases are smooth with those that are so many further on.
app() {
    printf 'version = 1\ndetour = 4\ncost = "pressure"\ncore = [\n'
    for number in $(seq 0 255); do
        printf '{name = "k%d", ni = "n%d"},\n' "$number" $((number / 4))
    done
    printf ']\nconnection = [\n'
    connections
    printf ']\nuse = [\n'
    use_cases "$1"
    printf ']\n'
}

chip 7 >"$folder/chip"
app 0 >"$folder/apart"
app 1 >"$folder/chained"

head_line
for name in apart chained; do
    measure "$name" app "$folder/chip" "$folder/$name"
done
