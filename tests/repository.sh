# Sourced by run-rows.sh: what must hold in the repository, whatever the programs do: its proofs by hand, the names that
# documents give, and words of tests/row.py beside the bytes that they make. Of the programs it has their version and options.

# Both programs and each man page are of one version, the newest of CHANGELOG.
check_version() {
    local page
    [ "$("$program" --version)" = "rpcbind $version" ] && [ "$("$rpcinfo" --version)" = "rpcinfo $version" ]
    judge $? "the version of both programs is not the newest of CHANGELOG, $version"
    for page in man/*; do
        grep -qxE "\.Os rpcbind ${version//./\\.}|\.TH .* \"rpcbind ${version//./\\.}\" .*" "$page"
        judge $? "$page is not of the newest version of CHANGELOG, $version"
    done
}

# A proof by hand could set the true count of the meter's token, so those of its two functions are the only ones.
check_proofs_by_hand() {
    local token=./crates/rb_xdr/proofs/tally/Tally
    printf '%s\n' $token/new/Proof.antt $token/raise/Proof.antt > "$work/wanted"
    find . -regex '\./crates/[^/]*/out' -prune -o -name Proof.antt -print | LC_ALL=C sort > "$work/proofs"
    same "$work/wanted" "$work/proofs" "proofs by hand"
    judge $? "proofs by hand other than those of the meter's token"
}

# `rt ci` refuses a crate that is not laid out as `rt fmt` does it, and `make` doesn't look.
check_layout() {
    local rattle
    rattle=$(dirname "$(readlink -f "$(command -v rt)")")/rattle
    find crates -name out -prune -o \( -name '*.rt' -o -name '*.antt' \) -print | xargs "$rattle" fmt --check > "$work/layout" 2>&1
    judge $? "files that rt fmt lays out in another way: $(wc -l < "$work/layout")"
    cat "$work/layout"
}

# Each name that the documents give is one of the repository's.
check_names() {
    tests/check-names.py > "$work/names"
    judge $? "names and code of others that stand nowhere: $(grep -vc ' passed, ' "$work/names")"
    grep -v ' passed, ' "$work/names"
}

# docs/RULES.md is what the comments make it, and each rule has a row, a test or an edit, or a reason why it has none.
check_rules() {
    tests/make-rules.py --check > "$work/rules"
    judge $? "comments of rules, or docs/RULES.md: $(wc -l < "$work/rules")"
    cat "$work/rules"
}

# docs/ANSWERS.md is what the comments above laws and calls make it, and each law answers a question of tests/questions.
check_answers() {
    tests/make-answers.py --check > "$work/answers"
    judge $? "tests/questions, or docs/ANSWERS.md: $(wc -l < "$work/answers")"
    cat "$work/answers"
}

# docs/BELIEVED.md is what the sources make it.
check_believed() {
    tests/make-believed.py --check > "$work/believed"
    judge $? "docs/BELIEVED.md is not what the sources make: $(wc -l < "$work/believed")"
    cat "$work/believed"
}

# tests/row.py makes events from words: those of the example as they stand, and in the rows those below their words.
check_words() {
    tests/row.py --bare < examples/first.words > "$work/events" \
        && same examples/first.events "$work/events" "events of words"
    judge $? "examples/first.words are not the events of examples/first.events"
    tests/row.py --compare tests/rows/*.events
    judge $? "words in tests/rows that do not make the bytes below them"
}

# docs/beside-debians.svg is the picture of tables of docs/MEASUREMENTS.md.
check_figures() {
    tests/draw-figures.py --check
    judge $? "the picture beside Debian's"
}

# docs/ARCHITECTURE.md names every crate.
check_crates_are_named() {
    local line name unnamed=
    while read -r line; do
        line=${line%%#*}
        name=${line%%[: ]*}
        [ -n "$name" ] || continue
        grep -qw -- "$name" docs/ARCHITECTURE.md || unnamed="$unnamed $name"
    done < <(cat crates.txt tests/crates/uses.txt)
    [ -z "$unnamed" ]
    judge $? "docs/ARCHITECTURE.md does not name:$unnamed"
}

# The options that a help shows, one a line: what stands before two spaces in a line that begins with one.
list_options() {
    sed -nE 's/^ +(-.*)/\1/p' | sed -E 's/  .*//' | tr ', ' '\n\n' | grep -oE '^--?[A-Za-z0-9][a-z0-9-]*' | LC_ALL=C sort -u
}

# What bash completes after these words, one a line.
complete_words() {
    bash -c '. packaging/rpcbind-proved.bash-completion; COMP_WORDS=("$@"); COMP_CWORD=$(($# - 1)); function=_${1}_proved
        "$function"; printf "%s\n" "${COMPREPLY[@]}"' bash "$@" | LC_ALL=C sort -u
}

# Bash completes just the options that each help shows, except that -h and -V of rpcbind have their long names alone.
check_completion() {
    local bad=0 command
    for command in serve replay; do
        "$program" "$command" --help | list_options | grep -e -- > "$work/wanted"
        complete_words rpcbind "$command" -- > "$work/completed"
        same "$work/wanted" "$work/completed" "completion of rpcbind $command" || bad=1
    done
    "$rpcinfo" --help | list_options > "$work/wanted"
    complete_words rpcinfo - > "$work/completed"
    same "$work/wanted" "$work/completed" "completion of rpcinfo" || bad=1
    judge $bad "the options that bash completes are not those of --help"
}

# What the programs say of themselves.
check_programs() {
    check_version
    check_completion
}

check_repository() {
    check_proofs_by_hand
    check_layout
    check_crates_are_named
    check_figures
    check_names
    check_rules
    check_answers
    check_believed
    check_words
}

portless+=(check_repository check_programs)
