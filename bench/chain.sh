#!/bin/sh
# Prints the seconds, the peak memory and the instructions of `aeth chain` for a large design: six channels, 100,000
# words, a million cycles; those of `aeth tables` for the same use case, which is what `chain` reads, judges and makes
# before the words; and the ratio of the instructions to those of a peer, which steps each channel through all cycles,
# in plain optimised Rust, on one thread, and without any proof. The files are those of `inputs.py`, whose head says
# what each is, and the plan that `aeth allocate` prints for these. It needs valgrind, GNU time and Python 3. The
# instructions are about the same at each run on one machine. The status is 1 where there are more than 500 million.
set -eu

home=$(dirname -- "$(dirname -- "$(readlink -f -- "$0")")")
. "$home/bench/instructions.sh"
. "$home/bench/files.sh"

python3 "$home/bench/inputs.py" "$folder"
"$program" allocate "$folder/chip" "$folder/app_hops" >"$folder/plan"

head_line
measure tables tables "$folder/chip" "$folder/app_hops" "$folder/plan" u0
measure chain chain "$folder/chip" "$folder/app_hops" "$folder/plan" u0 \
    c0:fwd:16,c46:back:9,c239:back:100,c406:back:1,c372:back:7,c2:back "$folder/words_chain" \
    "$folder/receivers_none" 1000000
peer=802708730
printf 'of the peer: %d.%02d\n' $((all / peer)) $((100 * (all % peer) / peer))
[ "$all" -le 500000000 ]
