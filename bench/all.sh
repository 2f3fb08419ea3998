#!/bin/sh
# Prints the instructions of whole runs of `aeth` beside those of a peer, with their ratio and the most that it is to
# be, and counts the rows that are above it: then the status is 1. The peer is plain optimised Rust, on one thread, with
# bit masks and a pruned search, and without any proof. `inputs.py` makes the files, and the plans are those that
# `aeth allocate` prints for these. Words after the name of the script choose rows by their names; without one all are
# run but those that take minutes, and with `all` these too. A row whose name ends in `ms` is in milliseconds of a
# processor, and one whose name ends in `kb` is the peak memory. It needs valgrind, GNU time and Python 3.11.
set -eu

home=$(dirname -- "$(dirname -- "$(readlink -f -- "$0")")")
. "$home/bench/instructions.sh"
. "$home/bench/files.sh"
wanted=" $* "
above=0

python3 "$home/bench/inputs.py" "$folder"
python3 "$home/bench/slow_inputs.py" "$folder"
cd "$folder"
"$program" allocate chip app_hops >plan
"$program" allocate chip128 app_hops >plan128
"$program" allocate chip_paths app_all >plan_all
head -n 257 switches_1024 >switches_256
{ echo connection,side,cycle,value,; tail -n +2 words_dense; } >words_refused

# Whether a row is chosen, which takes minutes or not.
is_chosen() {
    case $wanted in
        *' all '* | *" $1 "*) return 0 ;;
        '  ') [ "$2" = short ] ;;
        *) return 1 ;;
    esac
}

# A number of hundredths, or a dash.
hundredths() {
    if [ "$1" = - ]; then echo -; else printf '%d.%02d\n' $(($1 / 100)) $(($1 % 100)); fi
}

# A row: its name, the most hundredths that its ratio is to be, the instructions of the peer and of `aeth`, and its peak
# memory.
show() {
    ratio=$((100 * $4 / $3))
    told=
    if [ "$2" != - ] && [ "$ratio" -gt "$2" ]; then
        told=above
        above=$((above + 1))
    fi
    printf '%-22s %14s %14s %6s %6s %8s  %s\n' "$1" "$4" "$3" "$(hundredths "$ratio")" "$(hundredths "$2")" "$5" "$told"
}

# A row of a whole run: whether it takes minutes, its name, its limit, the instructions of the peer, and the words.
run() {
    is_chosen "$2" "$1" || return 0
    name=$2 limit=$3 peer=$4
    shift 4
    /usr/bin/time -q -f %M -o time "$program" "$@" >text 2>&1 || true
    show "$name" "$limit" "$peer" "$(instructions "$@")" "$(cat time)"
}

# A row of a whole run in milliseconds of a processor, the least of five, where the peer was measured so.
run_time() {
    is_chosen "$2" "$1" || return 0
    name=$2 limit=$3 peer=$4
    shift 4
    least=
    for _ in 1 2 3 4 5; do
        /usr/bin/time -q -f '%U %S %M' -o time "$program" "$@" >text 2>&1 || true
        read -r user system peak <time
        spent=$(printf '%s %s\n' "$user" "$system" | awk '{ printf "%d", 1000 * ($1 + $2) }')
        if [ -z "$least" ] || [ "$spent" -lt "$least" ]; then least=$spent; fi
    done
    show "$name" "$limit" "$peer" "$least" "$peak"
}

# A row of a whole run in KB of memory, where the peer was measured so.
run_memory() {
    is_chosen "$2" "$1" || return 0
    name=$2 limit=$3 peer=$4
    shift 4
    /usr/bin/time -q -f %M -o time "$program" "$@" >text 2>&1 || true
    show "$name" "$limit" "$peer" "$(cat time)" "$(cat time)"
}

# The row of what a word of a trace takes when it is read: a run on a million of them, less one on the same file that is
# refused at its header, both of which end behind the file.
run_word() {
    is_chosen word "$1" || return 0
    read_all=$(instructions simulate chip app_hops plan words_dense no_receivers no_switches 1)
    refused=$(instructions simulate chip app_hops plan words_refused no_receivers no_switches 1)
    show word 110 1040 $(((read_all - refused) / 1000000)) -
}

slots_64=$(seq -s , 0 63)
slots_128=$(seq -s , 0 127)

printf '%-22s %14s %14s %6s %6s %8s\n' ROW INSTRUCTIONS PEER RATIO LIMIT PEAK_KB
run short slots_64 70 310000 slots 64 32 2 "$slots_64"
run short slots_128 70 330000 slots 128 64 2 "$slots_128"
run short server_64 70 310000 server 64 64 3 "$slots_64"
run short server_128 70 320000 server 128 128 3 "$slots_128"
run short chip 105 3018141 chip chip
run short app 105 34657781 app chip app_hops
run short allocate_hops 105 77274183 allocate chip app_hops
run short allocate_hops_128 105 91297219 allocate chip128 app_hops
run short allocate_pressure 80 224178667 allocate chip app_pressure
run short allocate_pressure_128 80 239569263 allocate chip128 app_pressure
run short allocate_stress 80 618874297 allocate chip app_stress
run long allocate_random 95 14471703007 allocate chip_random app_stress
run_time short allocate_paths_ms 120 620 allocate chip_paths app_paths
run_time short allocate_free_ms 120 530 allocate chip_paths app_free
run short allocate_cube 110 371156149 allocate cube app_pressure
run short check 105 44495799 check chip app_hops plan
run short check_128 105 45785356 check chip128 app_hops plan128
run short tables 105 45753233 tables chip app_hops plan u0
run short route_tables 120 46551404 route-tables chip app_hops plan u0
if is_chosen audit short; then
    "$program" links chip app_hops plan words_20k receivers switches_1024 10000 >log
fi
run short links 150 142990588 links chip app_hops plan words_20k receivers switches_1024 10000
run short audit 105 211330979 audit chip app_hops plan switches_1024 log 10000
run short explain 90 900000000 explain chip app_stress
if is_chosen confirm short; then "$program" explain chip app_stress >cert; fi
run short confirm 90 918000000 explain chip app_stress cert
if is_chosen confirm_mixed_ms long; then
    "$program" explain chip_one app_one >one
    { head -n 2 one; grep '^cut' one | shuf --random-source=one; echo end; } >mixed
fi
run_time long confirm_mixed_ms 200 180 explain chip_one app_one mixed
run_word long
run short simulate_short 150 99711593 simulate chip app_hops plan words_20k receivers switches_1024 20000
run short simulate_tables_short - 111213202 \
    simulate-tables chip app_hops plan words_20k receivers switches_1024 20000
run long simulate_idle 110 50196354 simulate chip app_hops plan words_none receivers_none switches_one 1000000
run long simulate_sparse 150 2319847085 simulate chip app_hops plan words_sparse receivers switches_1024 1000000
run long simulate_dense 150 2019582625 simulate chip app_hops plan words_dense receivers_none switches_one 1000000
run long simulate_tables_dense 160 2006081720 \
    simulate-tables chip app_hops plan words_dense receivers_none switches_one 1000000
run long simulate_delays 160 2193411327 simulate chip128 app_hops plan128 words_sparse receivers switches_one 1000000
run_time short burst_ms 150 230 simulate chip app_hops plan words_burst receivers_late switches_one 1000000
run short simulate_10 140 351447331 simulate chip app_hops plan words_10 receivers_none switches_one 1000000
run short simulate_100 150 86507763 simulate chip app_hops plan words_100 receivers_none switches_one 1000000
run short simulate_1000 130 53873409 simulate chip app_hops plan words_1000 receivers_none switches_one 1000000
run short simulate_switches 160 98372817 simulate chip app_hops plan words_none receivers_none switches_1024 1000000
run short simulate_tables_switches 150 216734202 \
    simulate-tables chip app_hops plan words_none receivers_none switches_256 1000000
run_memory long sessions_kb 150 55000 simulate chip_paths app_all plan_all words_all receivers_all switches_all 1000000
run_memory long landings_kb 103 77000 simulate chip_paths app_all plan_all words_all receivers_all switches_one 1000000
run short chain 61 802708730 chain chip app_hops plan u0 \
    c0:fwd:16,c46:back:9,c239:back:100,c406:back:1,c372:back:7,c2:back words_chain receivers_none 1000000
run short demo - 36954704 demo 7

printf '%d above\n' "$above"
[ "$above" = 0 ]
