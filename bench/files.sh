# What the scripts on files share: the folder for their files, a chip of many routers, and the
# measures of a command. Sourced after `instructions.sh`.
folder=$(mktemp -d)
trap 'rm -r "$folder"' EXIT

# A chip of 64 routers with an interface each, where each router sends to so many others. With 7 it is
# as large as the rules admit.
chip() {
    printf 'version = 1\nslots = 64\n'
    printf 'routers = [%s]\n' "$(seq -f '"r%g"' -s ', ' 0 63)"
    printf 'nis = [%s]\nlink = [\n' "$(seq -f '"n%g"' -s ', ' 0 63)"
    for router in $(seq 0 63); do
        printf '{from = "n%d", to = "r%d"}, {from = "r%d", to = "n%d"},\n' \
            "$router" "$router" "$router" "$router"
        for step in $(seq 1 "$1"); do
            printf '{from = "r%d", to = "r%d"},\n' "$router" $(((router + step) % 64))
        done
    done
    printf ']\n'
}

head_line() {
    printf '%-8s %8s %8s %14s %5s  %s\n' FILE SECONDS PEAK_KB INSTRUCTIONS TOML PRINTS
}

# The measures of a command on files, after a name for them: the seconds, the peak memory, the
# instructions, the share of TOML, and the first line that it prints. TOML is the share of the costliest
# function of the crates `toml` and `toml_parser` that stands alone in the program: a lower bound on
# theirs, since the compiler puts others, as that which skips comments, into their callers.
measure() {
    name=$1
    shift
    /usr/bin/time -q -f '%e %M' -o "$folder/time" "$program" "$@" >"$folder/text" 2>&1 || true
    read -r seconds peak <"$folder/time"
    valgrind --tool=callgrind --callgrind-out-file="$folder/profile" "$program" "$@" \
        >/dev/null 2>&1 || true
    callgrind_annotate --inclusive=yes --threshold=100 "$folder/profile" | tr -d , >"$folder/costs"
    all=$(sed -n 's/^ *\([0-9]*\) .*PROGRAM TOTALS.*/\1/p' "$folder/costs")
    toml=$(sed -n 's/^ *\([0-9]*\) .*[: ]toml[a-z_]*::.*/\1/p' "$folder/costs" | head -n 1)
    printf '%-8s %8s %8s %14s %4d%%  %s\n' "$name" "$seconds" "$peak" "$all" \
        $((100 * ${toml:-0} / all)) "$(head -n 1 "$folder/text")"
}
