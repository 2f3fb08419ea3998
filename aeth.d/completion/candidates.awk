# Prints what may stand in the place of a word: `word WORD`, `file ENDING` for files with this ending, `file` for all files,
# or `folder`. Its words are the word so far, and all words before it, from the name of the script on.

function plain(text) {
    gsub(/["\\\047]/, "", text)
    if (text ~ /^~\//) text = ENVIRON["HOME"] substr(text, 2)
    return text
}

# The names in the tables of a kind of an application, whether each stands apart or all stand in one list.
function names(kind,    line, inside) {
    while (app != "" && (getline line < app) > 0) {
        if (line ~ /^[ \t]*\[/) inside = line ~ "^[ \t]*\\[\\[[ \t]*" kind "[ \t]*\\]\\]"
        else if (line ~ /^[a-z_]+[ \t]*=[ \t]*\[/) inside = line ~ "^" kind "[ \t]*="
        while (inside && match(line, /name[ \t]*=[ \t]*["\047][^"\047]*["\047]/)) {
            name = substr(line, RSTART, RLENGTH - 1)
            line = substr(line, RSTART + RLENGTH)
            sub(/^[^"\047]*["\047]/, "", name)
            if (name ~ /^[A-Za-z0-9_]+$/) print "word " name
        }
    }
    close(app)
}

function offer(kind,    count, literals, i) {
    if (kind ~ /^(CHIP|APP)$/) print "file toml"
    else if (kind == "PLAN") print "file plan"
    else if (kind ~ /^(WORDS|RECEIVERS|SWITCHES|LOG|FLOWS|SEATS)$/) print "file csv"
    else if (kind ~ /^[A-Z]+\.[a-z]+$/) { sub(/.*\./, "", kind); print "file " kind }
    else if (kind ~ /^(CERT|FILE)$/) print "file"
    else if (kind == "FOLDER") print "folder"
    else if (kind ~ /^(USE|FROM|TO)$/) names("use")
    else if (kind ~ /^(CONNECTION|CONN)$/) names("connection")
    else if (kind == "CORE") names("core")
    else if (kind == "SIDE") { print "word fwd"; print "word back" }
    else if (kind ~ /^[a-z,-]+$/) {
        count = split(kind, literals, ",")
        for (i = 1; i <= count; i++) print "word " literals[i]
    }
}

function offer_all(list,    count, each, i) {
    count = split(list, each, "|")
    for (i = 1; i <= count; i++) { sub(/\.\.$/, "", each[i]); offer(each[i]) }
}

function offer_commands(    i, title) {
    for (i = 1; i <= many; i++) {
        split(titles[i], title, " ")
        if (title[1] == script && (is_own || title[2] != "completion")) print "word " title[2]
    }
}

function offer_options(    count, each, i) {
    count = split(options[script " " command], each, " ")
    for (i = 1; i <= count; i++) { sub(/=.*/, "", each[i]); print "word " each[i] }
    print "word --help"
}

# Whether an option takes a word; its kind is `value`.
function takes(option,    count, each, i) {
    count = split(options[script " " command], each, " ")
    for (i = 1; i <= count; i++)
        if (index(each[i], option "=") == 1) { value = substr(each[i], length(option) + 2); return 1 }
    return 0
}

# The kind of the word in a place. The last one may stand there several times.
function kind_at(place) {
    if (place <= places) return kinds[place]
    return places && kinds[places] ~ /\.\.$/ ? kinds[places] : ""
}

BEGIN {
    many = split(ENVIRON["AETH_USAGE"], lines, "\n")
    for (i = 1; i <= many; i++) {
        split(lines[i], parts, "\t")
        titles[i] = parts[1]; positions[parts[1]] = parts[2]; options[parts[1]] = parts[3]
    }
    current = ARGV[1]; script = ARGV[2]; at = 3; last = ARGC - 1
    sub(/.*\//, "", script)
    is_own = 1
    if (last >= at && (script ARGV[at] == "designwhere" || script ARGV[at] == "aeth--unproved")) { script = "aeth"; at++; is_own = 0 }
    if (last < at) {
        offer_commands()
        if (is_own) print "word help"
        if (is_own && script == "aeth") { print "word --version"; print "word --prove-only"; print "word --unproved" }
        exit
    }
    command = ARGV[at]
    if (command == "help" && is_own) { if (last == at) offer_commands(); exit }
    places = split(positions[script " " command], kinds, " ")
    place = 1; value = ""
    for (i = at + 1; i <= last; i++) {
        if (value != "") value = ""
        else if (ARGV[i] ~ /^--/) takes(ARGV[i])
        else { if (kind_at(place) == "APP") app = plain(ARGV[i]); place++ }
    }
    if (value != "") offer_all(value)
    else if (current ~ /^-/ || kind_at(place) == "") offer_options()
    else offer_all(kind_at(place))
    exit
}
