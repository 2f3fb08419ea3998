#!/bin/sh
# Prints the seconds, the peak memory and the instructions of `aeth links` for 10,000 cycles of the large design, with words
# on its channels and through 1,024 rows of switches, and of `aeth audit` for the log that it prints, of 73,293 flits; then of
# `aeth audit` on the header of this log alone: so what the rows take is seen. It prints the ratios of the instructions to
# those of a peer: the same in plain optimised Rust, on one thread, and without any proof. At last it prints the bytes of
# memory that a row takes in a log as long as the rules admit: the peak above that of `aeth audit` on the header alone, less
# the file's own bytes. That log has behind the rows of the first a row of a later cycle each, so it is clean too, and all
# rows are kept. The files are those of `inputs.py`, whose head says what each is, and the plan that `aeth allocate` prints
# for these. The log must be the one that `model.py` says the links carry, and clean. It needs valgrind, GNU time and Python
# 3.11. The instructions are about the same at each run on one machine.
set -eu

home=$(dirname -- "$(dirname -- "$(readlink -f -- "$0")")")
. "$home/bench/instructions.sh"
. "$home/bench/files.sh"

python3 "$home/bench/inputs.py" "$folder"
cd "$folder"
"$program" allocate chip app_hops >plan
"$program" links chip app_hops plan words_20k receivers switches_1024 10000 >log
python3 "$home/bench/model.py" links chip app_hops plan words_20k receivers switches_1024 10000 >model_log
cmp log model_log
[ "$("$program" audit chip app_hops plan switches_1024 log 10000)" = clean ]
head -n 1 log >header
rows=$(($(wc -l <log) - 1))
most=1000000
{ cat log; seq -f '%.0f,0,2147483649,100,101' 10000 $((10000 + most - rows - 1)); } >full_log

measure_log() {
    measure "$1" audit chip app_hops plan switches_1024 "$1" 10000
}

# The ratio of what was measured last to a peer's instructions.
tell_ratio() {
    printf 'of the peer: %d.%02d\n' $((all / $1)) $((100 * (all % $1) / $1))
}

head_line
measure links links chip app_hops plan words_20k receivers switches_1024 10000
tell_ratio 142990588
measure_log header
begun=$all least=$peak
measure_log log
tell_ratio 211330979
printf 'rows: %d, each %d instructions\n' "$rows" $(((all - begun) / rows))
[ "$(/usr/bin/time -q -f %M -o time "$program" audit chip app_hops plan switches_1024 full_log 10000)" = clean ]
peak=$(cat time)
printf 'rows: %d, each %d bytes\n' "$most" $((((peak - least) * 1024 - $(wc -c <full_log)) / most))
