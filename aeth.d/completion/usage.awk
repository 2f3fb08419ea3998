# Reads the first lines of the pages, and prints a line for each command: its script and its name, behind a tab the kinds of
# its words, and behind another one its options, each with the kind of its word.
#
# A kind is a word of the page, as PLAN or fwd; where several may stand in one place they have bars between them.

function add(kind) {
    sub(/,\.\.$/, "", kind)
    if (index("|" kinds[place] "|", "|" kind "|") == 0) kinds[place] = kinds[place] (kinds[place] == "" ? "" : "|") kind
    place++
    if (place > places) places = place
}

function finish(    count, words, i, depth, begins, option, value, values, names, many, line) {
    gsub(/\[/, " [ ", usage)
    gsub(/\]/, " ] ", usage)
    count = split(usage, words, " ")
    place = places = depth = begins[0] = 0
    split("", kinds)
    for (i = 3; i <= count; i++) {
        if (words[i] == "[") begins[++depth] = place
        else if (words[i] == "]") depth--
        else if (words[i] == "|") place = begins[depth]
        else if (words[i] ~ /^--/) {
            option = words[i]
            value = i < count && words[i + 1] !~ /^([]|[]$|--)/ ? words[++i] : ""
            if (!(option in values)) names[++many] = option
            values[option] = values[option] (values[option] == "" ? "" : "|") value
        } else if (words[i] != "..") add(words[i])
    }
    for (i = 0; i < places; i++) line = line (i ? " " : "") kinds[i]
    line = words[1] " " words[2] "\t" line "\t"
    for (i = 1; i <= many; i++) line = line (i > 1 ? " " : "") names[i] (values[names[i]] == "" ? "" : "=") values[names[i]]
    print line
    usage = ""
}

# In a page of `aeth` the first line tells its command; in those of `design` and `draw` each line that begins with a command
# does, and goes on where the next one is far in.
usage != "" && /^     +[^ ]/ { usage = usage " " $0; next }
usage != "" { finish() }
FNR == 1 && FILENAME ~ /\/help\// && /^aeth [a-z-]+ / { usage = $0 }
/^(design|draw) [a-z-]+ [^-]/ { usage = $0 }
/^from / { nextfile }
END { if (usage != "") finish() }
