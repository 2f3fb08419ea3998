# Runs the program, and tells on the terminal for how long it has been at work. It is sourced by `aeth`.
#
# Nothing is told, and this shell becomes the program, unless messages go to a terminal in whose foreground it is, and the text
# to a file: what is told would stand between a text on the terminal, or in the way of a program that shows it. Where it is
# told, the program has the same files, words, terminal and group as otherwise; signals are handed on to it; and this shell
# ends as the program did. The line is short, and the cursor stands before it, so that a message of the program covers it.

# Whether this shell is in the foreground of its terminal.
is_foreground() {
    read -r process <"/proc/$$/stat" || return 1
    set -- ${process##*) }
    [ "$3" = "$6" ]
}

# Whether interrupts are ignored, as in what a script has begun beside itself.
is_uninterrupted() {
    while read -r name value; do
        if [ "$name" = SigIgn: ]; then case $value in *[2-7a-f]) return 0 ;; *) return 1 ;; esac; fi
    done <"/proc/$$/status"
}

is_told() {
    case $program in *=*) return 1 ;; esac # `env` would take it for a setting
    [ -e /dev/stdin ] && { [ -f /dev/stdout ] || [ -c /dev/stdout ]; } && ! [ -e /dev/fd/9 ] && is_foreground &&
        ! is_uninterrupted && env --default-signal=INT,QUIT true
}

# For how many hundredths of a second the machine has been on.
now() {
    read -r uptime rest </proc/uptime
    uptime=${uptime%.*}${uptime#*.}
}

# Until it is ended: with the program, or by this shell, which waits for it.
tell_time() {
    pause=
    trap 'kill $pause 2>/dev/null; exit 0' TERM
    while kill -0 "$child" 2>/dev/null; do
        sleep 1 </dev/null >/dev/null 2>&1 &
        pause=$!
        wait "$pause" 2>/dev/null
        now
        if is_foreground; then printf '\raeth: %d s\r' $(((uptime - begun) / 100)) >&2; fi
    done
}

hand_on() {
    caught=$1
    if [ -n "$child" ]; then kill -s "$caught" "$child" 2>/dev/null; fi
}

# Ends as the program did.
end_as() {
    trap - HUP INT QUIT TERM USR1 USR2 ALRM
    if [ "$1" -gt 128 ]; then
        ulimit -c 0
        kill -$(($1 - 128)) $$ 2>/dev/null
    fi
    exit "$1"
}

run() {
    child= caught= ended=0
    for signal in HUP INT QUIT TERM USR1 USR2 ALRM; do trap "hand_on $signal" "$signal"; done
    now
    begun=$uptime
    # (what a shell begins beside itself would have its input from nowhere)
    { env --default-signal=INT,QUIT "$program" "$@" <&9 9<&- & } 9<&0
    child=$!
    tell_time >/dev/null &
    teller=$!
    while :; do # a signal that is handed on ends `wait` early
        # (what has just begun may still ignore an interrupt, so it is handed on again)
        if [ -n "$caught" ]; then
            sleep 0.1
            kill -s "$caught" "$child" 2>/dev/null
        fi
        ended=0
        wait "$child" 2>/dev/null || ended=$?
        kill -0 "$child" 2>/dev/null || break
    done
    kill "$teller" 2>/dev/null
    wait "$teller" 2>/dev/null
    now
    if [ $((uptime - begun)) -ge 100 ] && is_foreground; then printf '\r\033[K' >&2; fi
    end_as $ended
}

if is_told 2>/dev/null; then run "$@"; fi
