#!/bin/sh
# Prints the seconds, the peak memory and the instructions of `aeth chip` for a chip as large as the rules
# admit, for one with 1,024 links, which is refused for its ports, and for the first one padded by comments
# to the most bytes that a file may have. It needs valgrind and GNU time. The instructions are about the
# same at each run on one machine.
set -eu

home=$(dirname -- "$(dirname -- "$(readlink -f -- "$0")")")
. "$home/bench/instructions.sh"
. "$home/bench/files.sh"

chip 7 >"$folder/largest"
chip 14 >"$folder/ports"
cp "$folder/largest" "$folder/padded"
size=$(wc -c <"$folder/padded")
yes '# padding' | head -c $((33554432 - size)) >>"$folder/padded"

head_line
for name in largest ports padded; do
    measure "$name" chip "$folder/$name"
done
