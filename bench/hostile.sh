#!/bin/sh
# What `aeth` answers where the machine is hostile: streams that are closed, broken or full, files that are none, that
# can't be read, that grow or never end, and too little memory. Each row has the status and both texts that the rules
# give. It leaves nothing behind. It needs Python 3 for its largest run. A word after the name of the script is the
# program; without one it is that of `./aeth`.
set -u

home=$(dirname -- "$(dirname -- "$(readlink -f -- "$0")")")
program=${1-$home/out/aeth}
if [ $# -eq 0 ]; then "$home/aeth" slots 1 1 1 0 >/dev/null || exit 1; fi

folder=$(mktemp -d)
trap 'rm -rf "$folder"' EXIT
chmod 755 "$folder"
cp "$program" "$folder/aeth"
program=$folder/aeth
cp "$home/examples/pair.toml" "$home/examples/one.toml" "$folder"
cd "$folder" || exit 1
pair='chip slots 8 routers 2 nis 2 links 6 far 3 unreached 0'
passed=0 failed=0

# Compares a status and both texts with those of the rules: a name, the three that are wanted, and the status that came.
# The texts that came are in `out` and `err`.
expect() {
    if [ "$5" = "$2" ] && [ "$(cat out)" = "$3" ] && [ "$(cat err)" = "$4" ]; then
        passed=$((passed + 1))
    else
        failed=$((failed + 1))
        printf '%s: status %s for %s\n  out: %s\n  err: %s\n' "$1" "$5" "$2" "$(head -c 200 out)" "$(head -c 200 err)"
    fi
}

# Clears both texts, for a run that writes one of them elsewhere.
clear_texts() {
    : >out
    : >err
}

# ---- Streams. Nothing is on the other one.

clear_texts
"$program" slots 8 2 4 0,4 >&- 2>err
expect 'standard output closed' 5 '' '' $?
clear_texts
"$program" slots 8 1 4 1,2 2>&- >out
expect 'standard error closed' 5 '' '' $?
clear_texts
"$program" slots 8 2 4 0,4 >/dev/full 2>err
expect 'standard output on a full device' 5 '' '' $?
clear_texts
"$program" slots 8 1 4 1,2 2>/dev/full >out
expect 'standard error on a full device' 5 '' '' $?

# A pipe whose reader has gone: the second descriptor is opened while the first one still reads.
mkfifo pipe
exec 4<>pipe 5>pipe 4<&-
clear_texts
"$program" slots 8 2 4 0,4 >&5 2>err
expect 'a pipe without a reader as standard output' 5 '' '' $?
clear_texts
"$program" slots 8 1 4 1,2 2>&5 >out
expect 'a pipe without a reader as standard error' 5 '' '' $?
exec 5>&-

# ---- Files

"$program" chip nothing >out 2>err
expect 'a file that is missing' 4 '' 'read fault chip' $?
mkdir some
"$program" chip some >out 2>err
expect 'a folder in place of a file' 4 '' 'read fault chip' $?
"$program" app pair.toml some >out 2>err
expect 'a folder in place of the second file' 4 '' 'read fault app' $?

# The superuser may read each file, so the run is that of nobody.
cp pair.toml secret
chmod 000 secret
if [ "$(id -u)" -eq 0 ]; then
    setpriv --reuid=65534 --regid=65534 --clear-groups "$program" chip secret >out 2>err
else
    "$program" chip secret >out 2>err
fi
expect 'a file without the right to read it' 4 '' 'read fault chip' $?

# The memory of a process is a file that opens, and of which no read succeeds where nothing is held.
"$program" chip /proc/self/mem >out 2>err
expect 'a file of which no read succeeds' 4 '' 'read fault chip' $?

"$program" chip /dev/zero >out 2>err
expect 'a file that never ends' 2 '' 'refused chip 0 TooLong 0 -' $?
(cat pair.toml; head -c 33554433 /dev/zero | tr '\0' '#') >long
"$program" chip long >out 2>err
expect 'a file that is too long' 2 '' 'refused chip 0 TooLong 0 -' $?
"$program" chip /dev/null >out 2>err
expect 'a file without a byte' 2 '' 'refused chip 2 WrongKey 0 link' $?
cat pair.toml | "$program" chip /dev/stdin >out 2>err
expect 'a file that is a pipe' 0 "$pair" '' $?

# A file that grows while it is read: comments follow, so the answer is the same wherever the reading ends.
printf '#' >tail
head -c 65536 /dev/zero | tr '\0' '#' >>tail
cp pair.toml grows
(for _ in $(seq 1 200); do cat tail >>grows; done) &
same=0
for _ in $(seq 1 20); do
    "$program" chip grows >out 2>err
    status=$?
    [ "$status" = 0 ] && [ "$(cat out)" = "$pair" ] && [ ! -s err ] && same=$((same + 1))
done
wait
[ "$same" = 20 ]
expect 'a file that grows while it is read, 20 times' 0 "$pair" '' $?

"$program" simulate pair.toml one.toml nothing nothing nothing nothing 20 >out 2>err
expect 'the plan is the first file that is missing' 4 '' 'read fault plan' $?

# ---- A long text, of which a part is written.

mkdir large
python3 "$home/bench/inputs.py" large
"$program" allocate large/chip large/app_hops >large/plan

# A file may have no more than 512 bytes: the signal that says so is ignored, so that the write fails.
clear_texts
(
    trap '' XFSZ
    ulimit -f 1
    exec "$program" allocate large/chip large/app_hops >out 2>err
)
expect 'a device that is full in the middle' 5 "$(head -c 512 large/plan)" '' $?

# The pipe holds less than the text, so its reader goes while the text is written.
clear_texts
head -c 100 <pipe >out &
"$program" allocate large/chip large/app_hops >pipe 2>err
status=$?
wait
expect 'a pipe whose reader goes in the middle' 5 "$(head -c 100 large/plan)" '' "$status"

# ---- Memory

for room in 24000 32000 48000 64000; do
    (
        ulimit -v "$room"
        exec "$program" simulate large/chip large/app_hops large/plan large/words_dense large/receivers_none \
            large/switches_one 1000000
    ) >out 2>err
    expect "the largest run in $room kB" 6 '' '' $?
done

printf '%d passed, %d failed\n' "$passed" "$failed"
[ "$failed" -eq 0 ]
