# Proves and builds the program. `aeth` reads this file, which uses its `home`, `program`, `indexed` and `listed`.
#
# The crates that the program stands on are copied to a folder of their own, without their wrong bodies, and `rt ci` proves
# them there: side by side, as many as there are processors and memory. It keeps each crate as soon as it is proved, for
# all checkouts on this machine, and takes over what it kept before. So a build that was ended goes on where it was, and
# what a gate or another checkout proved of the same sources isn't proved again. Nearly all crates wait for a chain of low
# ones. These are proved ahead in a run that has no others, and so two processors for each. All but the last are proved by
# as many provers as there are processors, and then a run of all proves the last and builds the program.
#
# What runs afterwards is a copy, `out/aeth`. Beside it stand git's index and a list of the sources that it was built
# from, and the prover's text where the build failed. The last few programs are kept in the user's cache too, each by the
# checksum of its sources and the kit's line: so another checkout, or one that goes back to what it was, has its program at once.

out=$home/out
log=$out/build.$$.log
room=
ahead=

# The crates that the program is built from, each after those that it stands on.
crates_in_order() {
    awk '
        { sub(/#.*/, "") }
        split($0, parts, ":") > 1 { split(parts[1], words, " "); deps[words[1]] = parts[2] }
        function visit(name, list, count, i) {
            if (name in seen || !(name in deps)) return
            seen[name]
            count = split(deps[name], list, " ")
            for (i = 1; i <= count; i++) visit(list[i])
            print name
        }
        END { visit("aeth") }
    ' "$home/crates.txt"
}

# Copies what `rt ci` reads of these crates to the folder `all` in `room`, so that neither a change meanwhile nor another
# `rt` meets it. The folder stands outside of the checkout: a gate there refuses sources that it doesn't know.
copy_crates() {
    room=$(mktemp -d "${TMPDIR:-/tmp}/aeth-build.XXXXXX") && mkdir -p "$room/all/crates" "$room/low/crates" || return 1
    if [ -f "$home/HANDLES" ]; then
        cp "$home/HANDLES" "$room/all/HANDLES" && cp "$home/HANDLES" "$room/low/HANDLES" || return 1
    fi
    for crate in $order; do
        grep "^ *$crate *\( staticlib *\)\{0,1\}:" "$home/crates.txt" >>"$room/all/crates.txt" || return 1
        mkdir "$room/all/crates/$crate" || return 1
        for part in src specs proofs data stdin stdout args status; do
            if [ -e "$home/crates/$crate/$part" ]; then
                cp -R "$home/crates/$crate/$part" "$room/all/crates/$crate/$part" || return 1
            fi
        done
    done
}

# The size of each crate's sources, which the time of its proof goes by.
weigh() {
    for crate in $order; do
        echo "$crate $(find "$room/all/crates/$crate" -name '*.rt' -o -name '*.antt' | xargs cat 2>/dev/null | wc -c)"
    done
}

# The low crates that are proved ahead: the heaviest chain of those on which at least half of all stands, by the size of the
# sources. All others wait for it. Of a few KB there are none.
low_crates() {
    awk -v weights="$out/weights.$$" '
        BEGIN { while ((getline line < weights) > 0) { split(line, of, " "); weight[of[1]] = of[2]; all += of[2] } }
        { split($0, parts, ":"); split(parts[1], words, " "); name = order[NR] = words[1]; stands_on[name] = parts[2]
          count = split(parts[2], list, " ")
          for (i = 1; i <= count; i++) if (list[i] in weight) below[name] = below[name] " " below[list[i]] " " list[i]
          count = split(below[name], list, " "); split("", seen)
          for (i = 1; i <= count; i++) if (!(list[i] in seen)) { seen[list[i]]; above[list[i]] += weight[name] } }
        END { if (all <= 50000) exit
              for (i = 1; i <= NR; i++) if (2 * above[order[i]] >= all) {
                  name = order[i]; count = split(stands_on[name], list, " "); sum = 0; chain[name] = name
                  for (k = 1; k <= count; k++) if (list[k] in sums && sums[list[k]] > sum) {
                      sum = sums[list[k]]; chain[name] = chain[list[k]] "\n" name }
                  sums[name] = sum + weight[name]
                  if (sums[name] > most) { most = sums[name]; heaviest = name } }
              if (heaviest) print chain[heaviest] }
    ' "$room/all/crates.txt"
}

# Proves these crates in a folder that has no others. `rt ci` gives a crate two processors where no other waits for one,
# and goes on at once to the next, before the run of all sees that it is proved.
prove_low() {
    run=
    trap 'kill $run 2>/dev/null; exit' TERM
    while read -r crate; do
        cp -R "$room/all/crates/$crate" "$room/low/crates/$crate" &&
            grep "^ *$crate *\( staticlib *\)\{0,1\}:" "$room/all/crates.txt" >>"$room/low/crates.txt" || return
    done <"$room/low/chain"
    (cd "$room/low" && exec rt ci) </dev/null >/dev/null 2>&1 &
    run=$!
    wait $run
}

# The crates that stand on less than nine tenths of all others, by the size of the sources. Of a few KB there are none.
early_crates() {
    awk -v weights="$out/weights.$$" '
        BEGIN { while ((getline line < weights) > 0) { split(line, of, " "); weight[of[1]] = of[2]; all += of[2] } }
        { split($0, parts, ":"); split(parts[1], words, " "); name = words[1]
          count = split(parts[2], list, " ")
          for (i = 1; i <= count; i++) if (list[i] in weight) below[name] = below[name] " " below[list[i]] " " list[i]
          count = split(below[name], list, " "); split("", seen); sum = 0
          for (i = 1; i <= count; i++) if (!(list[i] in seen)) { seen[list[i]]; sum += weight[list[i]] }
          if (all > 50000 && 10 * sum < 9 * (all - weight[name])) print name }
    ' "$room/all/crates.txt"
}

# Proves the early crates, as many at once as there are processors. `rt ci` by itself has fewer at once where its reckoning
# of their memory, which is several times what they take, comes to more than there is. The last crates, on which nothing
# waits, are left to a run of all, which gives each more than one processor.
prove_early() {
    early=$(early_crates)
    if [ -z "$early" ] || [ -n "${RT_JOBS-}" ] || ! has_memory; then return; fi
    (cd "$room/all" && RT_JOBS=$(getconf _NPROCESSORS_ONLN) && export RT_JOBS && exec rt ci $early) </dev/null >"$log" 2>&1
}

# Whether there is memory for a prover on each processor, of 3 GB each, which is twice what most take.
has_memory() {
    awk -v count="$(getconf _NPROCESSORS_ONLN)" '/^MemAvailable:/ { exit $2 < 3000000 * count }' /proc/meminfo 2>/dev/null
}

# Whether there are processors to spare while low crates are proved, and memory for two runs.
has_room() {
    [ "$(getconf _NPROCESSORS_ONLN)" -gt 2 ] && awk '/^MemAvailable:/ { exit $2 < 8000000 }' /proc/meminfo 2>/dev/null
}

end_low() {
    if [ -n "$ahead" ]; then
        kill "$ahead" 2>/dev/null
        wait "$ahead"
        ahead=
    fi
}

# How far the build is, from the crates that it told of, and how long it has been and may be yet.
progress() {
    text="aeth: $(sed -n 's/^rt: \([a-z0-9_]*\) \(proved\|is kept: .*\)$/\1/p' "$log" 2>/dev/null |
        awk -v gone="$(($(date +%s) - begun))" -v weights="$out/weights.$$" '
            BEGIN { while ((getline line < weights) > 0) { split(line, of, " "); weight[of[1]] = of[2]; all += of[2]; many++ } }
            $1 in weight { ready += weight[$1]; count++; delete weight[$1] }
            END {
                if (!all) { print "reading the sources"; exit }
                printf "%d of %d crates proved, %d min gone", count, many, gone / 60
                if (ready > all / 20 && ready < all) printf ", some %d to go", gone / ready * (all - ready) / 60 + 1
                if (count == many) printf ", building the program"
            }')"
}

# Tells how far the build is, until it is ended: one line that is rewritten on a terminal, else a line for each change. It
# ends with the list of weights, since a signal that comes while a shell begins may be lost.
tell_progress() {
    begun=$(date +%s)
    before=
    while [ -e "$out/weights.$$" ] && kill -0 $$ 2>/dev/null; do
        progress
        if [ -t 2 ]; then
            printf '\r%s\033[K' "$text" >&2
        elif [ "${text%%,*}" != "$before" ]; then
            echo "$text" >&2
            before=${text%%,*}
        fi
        sleep 1 >/dev/null 2>&1
    done
}

end_progress() {
    rm -f "$out/weights.$$"
    kill "$teller" 2>/dev/null
    wait "$teller" 2>/dev/null
    if [ -t 2 ]; then printf '\r\033[K' >&2; fi
}

forget() {
    rm -rf "$out/sources.$$" "$out/list.$$" "$out/aeth.$$" "$out/weights.$$" ${room:+"$room"}
}

give_up() {
    forget
    echo "aeth: $1, so nothing was run" >&2
    if [ -s "$log" ]; then
        mv "$log" "$out/build.log"
        grep -m 1 '^error' "$out/build.log" >&2
        echo "aeth: the prover's text is in $out/build.log" >&2
    fi
    exit 126
}

stopped() {
    end_progress
    end_low
    forget
    rm -f "$log"
    echo "aeth: ended; what is proved is kept, and the next call goes on from there" >&2
    trap - "$1"
    kill "-$1" $$
}

# Notes the sources as they are now: what is changed during the build is built by the next call.
note_sources() {
    listed >"$out/list.$$"
    if ! command -v git >/dev/null; then return; fi
    GIT_CONFIG_GLOBAL=/dev/null GIT_CONFIG_SYSTEM=/dev/null git init -q --bare "$out/sources.$$" 2>/dev/null &&
        (cd "$home" && find crates.txt HANDLES crates -name out -prune -o \
            \( -name '*.rt' -o -name '*.antt' -o -name crates.txt -o -name HANDLES \) -print0) |
        indexed "sources.$$" update-index -z --add --stdin || rm -rf "$out/sources.$$"
}

# Whether `rt ci` has left a program here, and no source was changed, made, deleted or put back since that run made its
# first folder. (It makes a crate's folder `out` when the crate's turn comes, and aeth_base is the lowest crate.) The clock
# of files goes in steps of up to 10 ms, so what changed within 20 ms before that counts too.
is_left_by_gate() {
    if ! [ -x "$built" ]; then return 1; fi
    for crate in "$home/crates"/*; do
        if [ "$crate" -nt "$crate/out" ]; then return 1; fi
    done
    began=$(stat -c %.9W "$home/crates/aeth_base/out" 2>/dev/null) || return 1
    if [ "${began%%[.,]*}" -le 0 ]; then return 1; fi
    began=$(echo "$began" | LC_ALL=C awk '{ sub(/,/, "."); printf "%.6f", $1 - 0.02 }')
    changed=$(find "$home/crates.txt" "$home/HANDLES" "$home/crates" -name out -prune -o \
        \( -path "$home/crates/*/*" -type d -o -path "$home/crates" -o -name '*.rt' -o -name '*.antt' \
        -o -name crates.txt -o -name HANDLES \) -newerct "@$began" -print 2>&1) &&
        [ -z "$changed" ] && [ -n "$(find "$built" -newermt "@$began" 2>/dev/null)" ]
}

# Where the program of the noted sources is kept for all checkouts of this user, if there is such a place.
find_cache() {
    cache=
    if ! [ -d "$out/sources.$$" ]; then return; fi
    tree=$(indexed "sources.$$" write-tree) && kit=$(rt version 2>/dev/null) || return
    programs=${XDG_CACHE_HOME:-$HOME/.cache}/aeth
    cache=$programs/$(echo "$tree $kit" | cksum | tr ' ' -)-$tree
}

# Keeps a program there, and of the others the seven that were kept last.
keep_for_others() {
    if [ -z "$cache" ] || [ -x "$cache" ]; then return; fi
    if mkdir -p "$programs" 2>/dev/null && cp "$built" "$cache.$$" 2>/dev/null && mv "$cache.$$" "$cache" 2>/dev/null; then
        (cd "$programs" && ls -t | tail -n +9 | while read -r old; do rm -f "./$old"; done)
    fi
}

# Keeps the program that was built of the noted sources.
keep() {
    rm -rf "$out/sources" "$out/list"
    cp "$built" "$out/aeth.$$" && mv "$out/aeth.$$" "$program" && mv "$out/list.$$" "$out/list" ||
        give_up "the program can't be kept in $out"
    if [ -d "$out/sources.$$" ]; then mv "$out/sources.$$" "$out/sources"; fi
}

# What a newcomer reads while the first build goes on.
tell_first() {
    echo "aeth: the program is proved and built first. With nothing kept on this machine that takes half an hour to an" >&2
    echo "aeth: hour. Meanwhile: \`./aeth help\`, README.md, \`./design chip mesh 4 4 --slots 32\`." >&2
    echo "aeth: Ctrl-C ends it; what is proved by then is kept, and the next call goes on from there." >&2
}

# Proves the crates and builds the program in the folder `room`.
build() {
    order=$(crates_in_order)
    trap 'forget; exit 130' INT TERM HUP
    copy_crates || give_up "the sources can't be copied to ${TMPDIR:-/tmp}"
    weigh >"$out/weights.$$"
    tell_first
    tell_progress &
    teller=$!
    trap 'stopped INT' INT
    trap 'stopped TERM' TERM
    trap 'stopped HUP' HUP
    low_crates >"$room/low/chain"
    if [ -s "$room/low/chain" ] && has_room; then
        prove_low &
        ahead=$!
        sleep 2 # so that the low crates are begun there
    fi
    ended=0
    prove_early || ended=$?
    [ $ended -ne 0 ] || (cd "$room/all" && exec rt ci) </dev/null >>"$log" 2>&1 || ended=$?
    end_progress
    end_low
    trap - INT TERM HUP
    if [ $ended -ne 0 ]; then give_up "not proved or not built"; fi
    built=$room/all/crates/aeth/out/aeth
    if ! [ -x "$built" ]; then give_up "not built"; fi
}

built=$home/crates/aeth/out/aeth
# (`true` and no `:`, with which a file that can't be made would end this shell)
{ mkdir -p "$out" && true >"$log"; } 2>/dev/null || give_up "nothing can be written in $out, where the program is built"
note_sources
find_cache

if [ -n "$cache" ] && [ -x "$cache" ]; then
    built=$cache
elif ! is_left_by_gate; then
    if ! command -v rt >/dev/null; then
        forget
        rm -f "$log"
        echo "aeth: there is no \`rt\` on the path, which proves and builds this program" >&2
        echo "aeth: install the Rattle kit that README.md names, and put its folder bin on PATH" >&2
        exit 127
    fi
    build
fi
keep_for_others
keep
forget
rm -f "$log" "$out/build.log"
