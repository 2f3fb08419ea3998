# A first answer before any proof. `aeth` reads this file for `--unproved COMMAND WORDS..`, and uses its `home`.
#
# `rt try` compiles the sources as they are, proves nothing, and runs the program in a folder of its own. So the files of the
# command are handed over by their bytes. Each run is compiled anew, nothing is kept, and a line on standard error says so.
# What `rt try` itself says stands behind the program's own messages, and is taken off.

if [ $# -eq 0 ]; then
    echo "aeth: --unproved takes a command and its words; \`./aeth help\` lists them" >&2
    exit 1
fi
if ! command -v rt >/dev/null; then
    echo "aeth: there is no \`rt\` on the path, which compiles this program; README.md names the Rattle kit" >&2
    exit 127
fi

# What each word of the command is, by the first line of its page: CHIP, APP and so on.
kinds=
case $1 in
'' | *[!a-z-]*) ;;
*) kinds=$(sed -n '1s/^aeth [a-z-]*//p' "$home/aeth.d/help/$1" 2>/dev/null | tr -d '[]') ;;
esac

# Puts each file in place of its name: `word2=PATH` is handed over, and `word2` stands for it.
count=$#
place=0
separator=$(printf '\037')
handed=
for word in "$@"; do
    kind=$(echo "$kinds" | awk -v place="$place" '{ print place ? $place : "" }')
    case $kind in
    CHIP | APP | PLAN | CERT | WORDS | RECEIVERS | SWITCHES | LOG)
        if [ -f "$word" ] && [ -r "$word" ]; then
            case $word in /*) path=$word ;; *) path=$PWD/$word ;; esac
            handed="$handed${handed:+$separator}word$place=$path"
            word=word$place
        fi
        ;;
    esac
    set -- "$@" "$word"
    place=$((place + 1))
done
shift "$count"

echo "aeth: UNPROVED: the sources are compiled without any proof, which takes a minute or two, each time anew" >&2
said=$(mktemp "${TMPDIR:-/tmp}/aeth-unproved.XXXXXX") || exit 126
trap 'rm -f "$said"' EXIT
trap 'exit 130' INT TERM HUP
status=0
(
    set -- -- "$@"
    old=$IFS
    IFS=$separator
    set -f
    for one in $handed; do set -- --data "$one" "$@"; done
    IFS=$old
    cd "$home/crates/aeth" && exec rt try --seconds 600 "$@"
) 2>"$said" || status=$?
ended=$(sed -n 's/^checked: ended status=\([0-9]*\)$/\1/p' "$said" | tail -n 1)
sed '/^checked: ended status=[0-9]*$/d; /^run=/d' "$said" >&2
if [ -z "$ended" ]; then
    echo "aeth: it wasn't compiled, or didn't end, so there is no answer" >&2
    exit 126
fi
echo "aeth: UNPROVED: this answer is by a program that nothing has proved; without --unproved \`./aeth\` proves it first" >&2
exit "$ended"
