# What every script here begins with: builds the program where needed, and counts its instructions
# by valgrind. `home` is the root of the repository.
"$home/aeth" slots 1 1 1 0 >/dev/null
program=$home/out/aeth

instructions() {
    valgrind --tool=callgrind --callgrind-out-file=/dev/null "$program" "$@" 2>&1 >/dev/null |
        sed -n 's/.*Collected : //p'
}
