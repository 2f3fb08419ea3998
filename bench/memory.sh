#!/bin/sh
# What `aeth` answers where memory is refused: at each allocation of four runs in turn, alone and with all later ones.
# It prints for each run how it ended where one alone was refused, and ends with status 0 where all is as it must be. It
# needs a C compiler and the C library of GNU. A word after the name of the script is the program; without one it is
# that of `./aeth`.
set -u

home=$(dirname -- "$(dirname -- "$(readlink -f -- "$0")")")
program=$(readlink -f -- "${1-$home/out/aeth}")
if [ $# -eq 0 ]; then "$home/aeth" slots 1 1 1 0 >/dev/null || exit 1; fi

folder=$(mktemp -d)
trap 'rm -rf "$folder"' EXIT
cc -O2 -fPIC -shared -fno-builtin -o "$folder/refuse.so" "$home/bench/refuse.c" || exit 1
cp "$home"/examples/*.toml "$home"/examples/two.*.csv "$folder"
for name in one.plan two.plan one.words.csv main.switches.csv; do
    cp "$home/crates/aeth_transcripts/data/$name" "$folder"
done
cd "$folder" || exit 1
failed=0

# A run of which the allocation of a number is refused, with `..` behind it each later one too: `status` is that of the
# run, and `told` isn't empty where one was refused.
run_refused() {
    refuse=$1
    shift
    REFUSE=$refuse LD_PRELOAD=$folder/refuse.so "$program" "$@" >out 2>err 9>told
    status=$?
}

ended_for_memory() { [ "$status" = 6 ] && [ ! -s out ] && [ ! -s err ]; }
ended_as_ever() { [ "$status" = "$ever" ] && cmp -s out whole_out && cmp -s err whole_err; }

tell_failure() {
    failed=$((failed + 1))
    printf '%s: status %s without allocation %s: %s\n' "$name" "$status" "$refuse" "$(head -c 80 err)"
}

# Refuses each allocation of a run, up to the first number at which nothing is refused: there the run must end as ever,
# with the status behind its name.
# Where all later ones are refused too it must write nothing and end with status 6. So it must where one alone is; but
# some the program does without, as room that is asked for ahead, and then it must end as ever.
refuse_each() {
    name=$1
    ever=$2
    shift 2
    "$program" "$@" >whole_out 2>whole_err
    [ $? = "$ever" ] || failed=$((failed + 1))
    number=1 ended=0 went_on=0
    while
        run_refused "$number.." "$@"
        [ -s told ]
    do
        ended_for_memory || tell_failure
        run_refused "$number" "$@"
        if ended_for_memory; then
            ended=$((ended + 1))
        elif ended_as_ever; then
            went_on=$((went_on + 1))
        else
            tell_failure
        fi
        number=$((number + 1))
    done
    ended_as_ever || tell_failure
    printf '%s: %s ended with status 6, %s went on, nothing is refused at %s\n' \
        "$name" "$ended" "$went_on" "$number"
}

refuse_each 'a plan' 0 allocate pair.toml one.toml
refuse_each 'a run in which five words land' 0 \
    simulate pair.toml one.toml one.plan one.words.csv two.receivers.csv main.switches.csv 20
refuse_each 'a run through a switch' 0 \
    simulate pair.toml two.toml two.plan two.words.csv two.receivers.csv two.switches.csv 24
refuse_each 'a run whose last file is missing' 4 \
    simulate pair.toml one.toml one.plan one.words.csv two.receivers.csv nothing 20

printf '%s failed\n' "$failed"
[ "$failed" -eq 0 ]
