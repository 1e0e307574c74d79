#!/usr/bin/env bash
# Reads CHANGELOG, whose versions have headings of the form 'VERSION (YYYY-MM-DD)', the newest first. Its word is one of
#
#     version   the newest version
#     seconds   noon of its date in UTC, in seconds since 1970
#     notes     what stands below its heading
#     debian    all of it in Debian's form, for the package of the second word and by the maintainer of the third
#
# A heading of another form is an error: a package has to say when each version was made.
set -u
cd "$(dirname "$0")/.." || exit 1

heading='^[0-9]+\.[0-9]+\.[0-9]+ \([0-9]{4}-[0-9]{2}-[0-9]{2}\)$'

# The newest heading: its version and its date.
read_newest() {
    local line other
    line=$(grep -m 1 -E '^([0-9]|Unreleased)' CHANGELOG)
    other=$(grep -E '^([0-9]|Unreleased)' CHANGELOG | grep -m 1 -vE "$heading")
    if [ -n "$other" ]; then
        echo "CHANGELOG: a heading is '$other', and 'VERSION (YYYY-MM-DD)' is wanted" >&2
        return 1
    fi
    version=${line%% *}
    date=${line#*(}
    date=${date%)}
}

# An entry begins with two spaces, and lines of more go on with it. If entries also have a mark, * or -, a line of two
# spaces without one is a heading inside the version.
write_entries() {
    awk '
        function write_out(first, rest, words, count, i, line) {
            if (text == "") return
            count = split(text, words, " ")
            line = first words[1]
            for (i = 2; i <= count; i++) {
                if (length(line) + 1 + length(words[i]) <= 78) { line = line " " words[i]; continue }
                print line
                line = rest words[i]
            }
            print line
            text = ""
        }
        { lines[NR] = $0; if (/^  [-*] /) marked = 1 }
        END {
            for (n = 1; n <= NR; n++) {
                line = lines[n]
                if (line ~ /^  [^ ]/) {
                    write_out("  * ", "    ")
                    if (marked && line !~ /^  [-*] /) { sub(/^ +/, "", line); sub(/:$/, "", line); print "  [ " line " ]"; continue }
                    sub(/^  [-*] /, "", line)
                }
                sub(/^ +/, "", line)
                text = text == "" ? line : text " " line
            }
            write_out("  * ", "    ")
        }'
}

# The lines below the heading of a version.
lines_of() {
    awk -v version="$1" '
        /^[0-9]+\.[0-9]+\.[0-9]+ / { inside = $1 == version; next }
        inside && NF { print }' CHANGELOG
}

write_debian() {
    local package=$1 maintainer=$2 version date
    while read -r version date; do
        date=${date//[()]/}
        echo "$package ($version) unstable; urgency=medium"
        echo
        lines_of "$version" | write_entries
        echo
        echo " -- $maintainer  $(LC_ALL=C date -u -R -d "$date 12:00")"
        echo
    done < <(grep -E "$heading" CHANGELOG) | sed '$d'
}

read_newest || exit 1
case ${1:-} in
    version) echo "$version" ;;
    seconds) date -u -d "$date 12:00" +%s ;;
    notes) lines_of "$version" ;;
    debian) write_debian "$2" "$3" ;;
    *) echo "changelog.sh: one of version, seconds, notes and debian is wanted" >&2 && exit 2 ;;
esac
