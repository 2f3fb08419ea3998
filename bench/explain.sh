#!/bin/sh
# Prints the seconds, the peak memory and the instructions of `aeth explain` for a large design of which 2,175 units are
# refused, without a certificate and with the one that it prints, and of `aeth allocate` for the same files, which is the
# allocation alone; and the ratio of the instructions to those of a peer, which walks in the same way, in plain optimised Rust,
# on one thread, and without any proof. With `random` behind its name it tells too what a certificate of the random chip
# takes, which has 257 MB: the memory beside the text, and that such a text is too long to be read back. A line tells the
# processor time, the least of five runs, of a text with the 53,168 cuts of one try in no order, and its ratio to the peer's.
# The files are those of `inputs.py`, whose head says what each is. It needs valgrind, GNU time and Python 3. The instructions
# are about the same at each run on one machine. The status is 1 where a run takes more than 900 million, the random one more
# than 30 MB beside its text, or the one in no order more than twice the peer's time.
set -eu

home=$(dirname -- "$(dirname -- "$(readlink -f -- "$0")")")
. "$home/bench/instructions.sh"
. "$home/bench/files.sh"
most=900000000 above=0

python3 "$home/bench/inputs.py" "$folder"
cd "$folder"

# The measures of one form, beside those of the peer.
beside() {
    peer=$1
    shift
    measure "$@"
    printf 'of the peer: %d.%02d\n' $((all / peer)) $((100 * (all % peer) / peer))
    if [ "$all" -gt "$most" ]; then above=1; fi
}

"$program" explain chip app_stress >cert
printf 'of %d refusals %d cuts\n' "$(grep -c '^try' cert)" "$(grep -c '^cut' cert)"
head_line
measure allocate allocate chip app_stress
beside 900000000 explain explain chip app_stress
beside 918000000 confirm explain chip app_stress cert

"$program" explain chip_one app_one >one
{ head -n 2 one; grep '^cut' one | shuf --random-source=one; echo end; } >mixed
least=
for _ in 1 2 3 4 5; do
    /usr/bin/time -q -f '%U %S' -o time "$program" explain chip_one app_one mixed >text
    taken=$(awk '{ printf "%d", 100 * ($1 + $2) + 0.5 }' time)
    if [ -z "$least" ] || [ "$taken" -lt "$least" ]; then least=$taken; fi
done
peer=18
printf 'in no order: %s, %d.%02d seconds, %d.%02d of the peer\n' "$(cat text)" $((least / 100)) $((least % 100)) \
    $((least / peer)) $((100 * (least % peer) / peer))
if [ "$least" -gt $((2 * peer)) ]; then above=1; fi

if [ "${1-}" = random ]; then
    /usr/bin/time -q -f '%e %M' -o time "$program" explain chip_random app_stress >cert
    read -r seconds peak <time
    text=$(($(wc -c <cert) / 1024))
    printf 'random: %s seconds, a text of %d KB, and %d KB beside it\n' "$seconds" "$text" $((peak - text))
    if [ $((peak - text)) -gt 30720 ]; then above=1; fi
    "$program" explain chip_random app_stress cert || true
fi
[ "$above" = 0 ]
