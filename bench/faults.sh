#!/bin/sh
# What `aeth` answers where a disk errs: at each read and each write of a run in turn, up to the first number at which
# nothing errs, and where each of these calls gives or takes few bytes. It ends with status 0 where all is as it must be. It
# needs a C compiler and the C library of GNU. A word after the name of the script is the program; without one it is that
# of `./aeth`.
set -u

home=$(dirname -- "$(dirname -- "$(readlink -f -- "$0")")")
program=$(readlink -f -- "${1-$home/out/aeth}")
if [ $# -eq 0 ]; then "$home/aeth" slots 1 1 1 0 >/dev/null || exit 1; fi

folder=$(mktemp -d)
trap 'rm -rf "$folder"' EXIT
cc -O2 -fPIC -shared -fno-builtin -o "$folder/refuse.so" "$home/bench/refuse.c" || exit 1
cp "$home/examples/pair.toml" "$folder/chip"
cp "$home/examples/one.toml" "$folder/app"
for name in one.plan one.words.csv two.receivers.csv main.switches.csv; do
    cp "$home/crates/aeth_transcripts/data/$name" "$folder"
done
cd "$folder" || exit 1
mv one.plan plan
mv one.words.csv words
mv two.receivers.csv receivers
mv main.switches.csv switches
files='chip app plan words receivers switches'
tried=0 failed=0

# The run, whose words land, with settings before the words of the command.
run_with() {
    tried=$((tried + 1))
    : >told
    env "$@" LD_PRELOAD="$folder/refuse.so" "$program" simulate $files 20 >out 2>err 9>told
    status=$?
}

# Compares a status and both texts, of which that of `out` is a file, with those that are wanted.
expect() {
    if [ "$status" != "$2" ] || ! cmp -s out "$3" || [ "$(cat err)" != "$4" ]; then
        failed=$((failed + 1))
        printf '%s: status %s: %s\n' "$1" "$status" "$(head -c 80 err)"
    fi
}

# Each read errs in turn, where a read gives so many bytes at most: one for each so many bytes of a file, and one for its
# end.
fail_reads() {
    number=0
    for file in $files; do
        size=$(wc -c <"$file")
        for _ in $(seq 0 $(((size + $1 - 1) / $1))); do
            number=$((number + 1))
            run_with "MOST=$1" "REFUSE_READ=$number"
            expect "read $number of at most $1 bytes" 4 empty "read fault $file"
        done
    done
    number=$((number + 1))
    run_with "MOST=$1" "REFUSE_READ=$number"
    expect "no read $number of at most $1 bytes" 0 whole ''
    [ ! -s told ] || failed=$((failed + 1))
}

# Each write errs in turn, where a write takes so many bytes at most: what was taken before it is on `out`.
fail_writes() {
    size=$(wc -c <whole)
    for number in $(seq 1 $(((size + $1 - 1) / $1))); do
        head -c $(((number - 1) * $1)) whole >front
        run_with "MOST=$1" "REFUSE_WRITE=$number"
        expect "write $number of at most $1 bytes" 5 front ''
    done
    number=$((number + 1))
    run_with "MOST=$1" "REFUSE_WRITE=$number"
    expect "no write $number of at most $1 bytes" 0 whole ''
    [ ! -s told ] || failed=$((failed + 1))
}

: >empty
"$program" simulate $files 20 >whole 2>err || failed=$((failed + 1))
for most in 1 2 16384; do
    fail_reads "$most"
    fail_writes "$most"
done

printf '%s runs, %s failed\n' "$tried" "$failed"
[ "$failed" -eq 0 ]
