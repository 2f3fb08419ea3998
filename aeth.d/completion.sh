# Prints what completes words in bash or zsh, as a text for this shell. It is sourced by `aeth`, whose words are its own.
#
# The commands and their words are those of the pages of help, so that what is completed is what the pages tell.
case ${2-} in
bash | zsh) ;;
*)
    echo "aeth: a completion is for bash or zsh; \`./aeth help completion\` tells more" >&2
    exit 1
    ;;
esac
parts=$home/aeth.d/completion
usage=$(LC_ALL=C awk -f "$parts/usage.awk" "$home"/aeth.d/help/* "$home/design" "$home/draw") &&
    candidates=$(cat -- "$parts/candidates.awk") && front=$(cat -- "$parts/$2") || exit 5
# (`cat` writes it, so that a write that fails ends with status 5 here too, and not by a signal)
printf '%s\n' "# What completes the words of aeth, design and draw in $2. Load it by: source <(./aeth completion $2)" \
    "_aeth_usage='$usage'" "_aeth_program='$candidates'" \
    '_aeth_candidates() { AETH_USAGE=$_aeth_usage LC_ALL=C awk "$_aeth_program" "$@"; }' "$front" | cat || exit 5
exit 0
