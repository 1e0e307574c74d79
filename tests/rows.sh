# Sourced by run-rows.sh: runs of the built programs over files. These are the rows of tests/rows and
# tests/rows-rpcinfo, and inputs that are made here since no file can hold them.
#
# A row of rpcbind is a dialogue, NAME.events: each event, and in the line below it what it gives, after `#> `, with
# the rule that the row shows, and its tag, in a first comment. If they differ from the word `replay`, from 0 and
# from nothing, NAME.args has the program's words, one a line, NAME.status the exit status and NAME.stderr the standard
# error. A row that hands lines after `#> ` to `--check` has its standard output in NAME.expected. What is expected is
# taken out of a row by `sed`; `replay --check` must also agree with it. A row with bytes of connections is run
# again with them cut into pieces of 1, of 7 and of 1,000 bytes: all its outputs stay, with the sums of what the pieces
# took.
#
# A row of rpcinfo is NAME.input, NAME.args, whose comment is the rule with its tag, and NAME.expected, with the same
# NAME.status and NAME.stderr.

# ---- rows of replay

# The outputs that stand in a file of events, each after `#> `.
outputs_of() {
    sed -n 's/^#> //p' "$1"
}

# What the run of a row must print.
wanted_of() {
    if [ -f "$1.expected" ]; then cat "$1.expected"; else outputs_of "$1.events"; fi
}

run_row() {
    local base=$1 words=(replay) status=0 stderr=/dev/null
    [ -f "$base.args" ] && mapfile -t words < "$base.args"
    [ -f "$base.status" ] && status=$(cat "$base.status")
    [ -f "$base.stderr" ] && stderr=$base.stderr
    wanted_of "$base" > "$work/wanted"
    run "$base.events" "${words[@]}"
    as_wanted "$work/wanted" "$stderr" "$status"
}

# `replay --check` finds no difference between the outputs that stand in a row and those of its run.
run_row_checked() {
    local base=$1 words=(replay)
    [ -f "$base.args" ] && mapfile -t words < "$base.args"
    echo "$(outputs_of "$base.events" | wc -l) outputs agree" > "$work/wanted"
    run "$base.events" "${words[@]}" --check
    as_wanted "$work/wanted" /dev/null 0
}

# Whether a row runs events and prints their outputs alone.
prints_outputs() {
    [ ! -f "$1.status" ] && ! grep -qs -e '--check' -e '--steps' "$1.args"
}

# Whether a row that prints outputs has that of each event in the line below it, and no other; counted steps stand last.
is_dialogue() {
    [ -f "$1.status" ] || grep -qs -e '--check' "$1.args" || LC_ALL=C awk '
        { kind = /^#> / ? "output" : /^#/ || /^$/ ? "comment" : "event" }
        (above == "event") != (kind == "output") && !/^#> steps / { bad = 1 }
        { above = kind }
        END { exit bad || above != "output" }
    ' "$1.events"
}

# Cuts the bytes of each `bytes` line into pieces of $2 bytes, a line each, and writes to $3 of each event how many
# lines it became.
cut_into_pieces() {
    LC_ALL=C awk -v width=$((2 * $2)) -v counts="$3" '
        /^#/ || /^$/ { next }
        $1 == "bytes" && $4 != "-" {
            pieces = 0
            for (at = 1; at <= length($4); at += width) {
                print $1, $2, $3, substr($4, at, width)
                pieces++
            }
            print pieces > counts
            next
        }
        { print; print 1 > counts }
    ' "$1"
}

# Puts the outputs of the pieces together again: what they took is a sum, and after a closing each is gone.
join_pieces() {
    LC_ALL=C awk '
        NR == FNR { pieces[FNR] = $1; next }
        FNR == 1 { event = 1; seen = 0 }
        {
            if (seen == 0) { took = 0; taken = 0; gone = 0; ending = "" }
            seen++
            if ($1 == "took" && ending == "") { took += $2; taken++; if (NF > 2) ending = " " $3 }
            else if ($1 == "gone") gone++
            if (seen < pieces[event]) next
            if (seen == 1) print
            else if (gone == seen) print "gone"
            else if (taken == seen || (ending != "" && taken + gone == seen)) print "took " took ending
            else print "pieces differ at event " event
            event++
            seen = 0
        }
    ' "$1" "$2"
}

run_row_in_pieces() {
    local base=$1 words=(replay)
    [ -f "$base.args" ] && mapfile -t words < "$base.args"
    cut_into_pieces "$base.events" "$2" "$work/counts" > "$work/events"
    run "$work/events" "${words[@]}"
    join_pieces "$work/counts" "$work/stdout" > "$work/joined"
    mv "$work/joined" "$work/stdout"
    wanted_of "$base" > "$work/wanted"
    as_wanted "$work/wanted" /dev/null 0
}

run_rows() {
    local events base name length rows=0 unruled= apart= stray= other
    for events in tests/rows/*.events; do
        [ -f "$events" ] || continue
        rows=$((rows + 1))
        base=${events%.events}
        name=$(basename "$base")
        run_row "$base"
        judge $? "row $name"
        if prints_outputs "$base"; then
            run_row_checked "$base"
            judge $? "row $name, checked"
        fi
        grep -q '^# [^(]' "$events" || unruled="$unruled $name"
        is_dialogue "$base" || apart="$apart $name"
        { [ -f "$base.status" ] || ! grep -q '^bytes' "$events"; } && continue
        for length in 1 7 1000; do
            run_row_in_pieces "$base" $length
            judge $? "row $name in pieces of $length"
        done
    done
    [ "$rows" -gt 0 ]
    judge $? "there is no row in tests/rows"
    [ -z "$unruled" ]
    judge $? "rows that say no rule in a comment:$unruled"
    [ -z "$apart" ]
    judge $? "rows whose outputs do not stand below their events:$apart"
    for other in tests/rows/*; do
        [ -f "${other%.*}.events" ] || stray="$stray $other"
    done
    [ -z "$stray" ]
    judge $? "files that belong to no row:$stray"
}

# ---- rows of rpcinfo

run_rpcinfo() {
    local program=$rpcinfo
    run "$@"
}

run_rpcinfo_row() {
    local base=$1 words status=0 stderr=/dev/null
    mapfile -t words < <(grep -v '^#' "$base.args")
    [ -f "$base.status" ] && status=$(cat "$base.status")
    [ -f "$base.stderr" ] && stderr=$base.stderr
    run_rpcinfo "$base.input" "${words[@]}"
    as_wanted "$base.expected" "$stderr" "$status"
}

run_rpcinfo_rows() {
    local input base rows=0 unruled= stray= other
    for input in tests/rows-rpcinfo/*.input; do
        [ -f "$input" ] || continue
        rows=$((rows + 1))
        base=${input%.input}
        run_rpcinfo_row "$base"
        judge $? "row $(basename "$base")"
        grep -q '^# .' "$base.args" || unruled="$unruled $(basename "$base")"
    done
    [ "$rows" -gt 0 ]
    judge $? "there is no row in tests/rows-rpcinfo"
    [ -z "$unruled" ]
    judge $? "rows that say no rule in a comment:$unruled"
    for other in tests/rows-rpcinfo/*; do
        [ -f "${other%.*}.input" ] || stray="$stray $other"
    done
    [ -z "$stray" ]
    judge $? "files that belong to no row:$stray"
}

# ---- inputs of replay that are made here

# LINE-12
# The input has at most 16,777,216 bytes: that many are read, and of one more no event is run. Most of them are one comment,
# and 262,144 are empty lines; behind them stands the last event.
run_longest_inputs() {
    { printf '# '; head -c 16515065 /dev/zero | tr '\0' x; head -c 262144 /dev/zero | tr '\0' '\n'; echo lost; } > "$work/events"
    echo 'lost -' > "$work/wanted"
    [ "$(stat -c %s "$work/events")" -eq 16777216 ] && run "$work/events" replay && as_wanted "$work/wanted" /dev/null 0
    judge $? "an input of 16,777,216 bytes"
    { echo lost; head -c 16777212 /dev/zero | tr '\0' '\n'; } > "$work/events"
    echo 'rpcbind: input too long' > "$work/wanted"
    run "$work/events" replay
    as_wanted /dev/null "$work/wanted" 2
    judge $? "an input of 16,777,217 bytes"
}

# Many events, each with its output.
run_many_events() {
    yes lost | head -n 250001 > "$work/events"
    yes 'lost -' | head -n 250001 > "$work/wanted"
    run "$work/events" replay
    as_wanted "$work/wanted" /dev/null 0
    judge $? "250,001 events"
}

# WORD-2
# A word that is no text can't be read.
run_word_without_text() {
    echo lost > "$work/events"
    echo 'rpcbind: a word is no text' > "$work/wanted"
    run "$work/events" $'\xff'
    as_wanted /dev/null "$work/wanted" 2
    judge $? "a word that is no text"
}

# REPLAY-3
# Status 0 says that the output was written out.
run_full_device() {
    echo 'rpcbind: write failed' > "$work/wanted"
    "$program" replay < examples/first.events > /dev/full 2> "$work/stderr"
    got=$?
    : > "$work/stdout"
    as_wanted /dev/null "$work/wanted" 1
    judge $? "an output that cannot be written"
}

run_input_that_cannot_be_read() {
    echo 'rpcbind: read failed' > "$work/wanted"
    run tests replay
    as_wanted /dev/null "$work/wanted" 1
    judge $? "an input that cannot be read"
}

# The memory of the process is limited to 24,000 KiB, and the input does not fit.
run_with_little_memory() {
    [ -z "$has_checks" ] || { echo 'not run: an input without memory'; return; }
    head -c 16777216 /dev/zero | tr '\0' '\n' > "$work/events"
    echo 'rpcbind: no memory' > "$work/wanted"
    (ulimit -v 24000 && exec "$program" replay < "$work/events" > "$work/stdout" 2> "$work/stderr")
    got=$?
    as_wanted /dev/null "$work/wanted" 1
    judge $? "an input that does not fit in memory"
}

# What is kept of an output has room for its own length, not for the greatest of its kind. The memory of the process is
# limited to 100,000 KiB, twice what this takes: an input of 2,000,000 bytes, with outputs of 13,500,000.
run_many_short_outputs() {
    local row=tests/rows/forward_by_callit.events
    [ -z "$has_checks" ] || { echo 'not run: many short outputs in little memory'; return; }
    {
        echo 'open 0 127.0.0.1:900'
        grep -v '^#' "$row" | head -n 2
        yes $'pending 1\nunsent' | head -n 235200
    } > "$work/events"
    {
        echo 'open 1'
        outputs_of "$row" | head -n 2
        yes "pending -"$'\n'"$(outputs_of "$row" | sed -n 3p)" | head -n 235200
    } > "$work/wanted"
    (ulimit -v 100000 && exec "$program" replay < "$work/events" > "$work/stdout" 2> "$work/stderr")
    got=$?
    as_wanted "$work/wanted" /dev/null 0
    judge $? "many short outputs in little memory"
}

# As often as an input can say it. An event and its output take at most 64 bytes of memory for each of their bytes
# (man/rpcbind-replay.8), so 2,000,000 KiB; the memory of the process is limited to 600,000 KiB, twice what this takes.
run_shortest_outputs_of_bytes() {
    [ -z "$has_checks" ] || { echo 'not run: outputs of no bytes in little memory'; return; }
    { echo 'open 0 127.0.0.1:900'; yes 'pending 1' | head -n 1599997; } > "$work/events"
    { echo 'open 1'; yes 'pending -' | head -n 1599997; } > "$work/wanted"
    (ulimit -v 600000 && exec "$program" replay < "$work/events" > "$work/stdout" 2> "$work/stderr")
    got=$?
    as_wanted "$work/wanted" /dev/null 0
    judge $? "outputs of no bytes in little memory"
}

# ---- inputs of rpcinfo that are made here

# A reply of one fragment, as hexadecimal text, with this many items of a list of these digits, and digits before and behind it.
long_reply() {
    printf '%08x0000000100000001%032x%s' $((0x80000000 + 28 + (${#3} + $1 * ${#2} + ${#4}) / 2)) 0 "$3"
    yes "$2" | head -n "$1"
    printf '00000000%s' "$4"
}

# A list is shown by these words: at most 4,096 items, of these digits, and the lines of `wanted`; of one more `wanted-of-more`
# stands, and it is too many.
run_rpcinfo_longest_list() {
    local words=$1 item=$2 before=${3:-} behind=${4:-}
    long_reply 4096 "$item" "$before" "$behind" > "$work/events"
    run_rpcinfo "$work/events" "$words" -
    as_wanted "$work/wanted" /dev/null 0
    judge $? "rpcinfo $words: 4,096 items"
    echo 'rpcinfo: too many rows' > "$work/wanted-said"
    long_reply 4097 "$item" "$before" "$behind" > "$work/events"
    run_rpcinfo "$work/events" "$words" -
    as_wanted "$work/wanted-of-more" "$work/wanted-said" 1
    judge $? "rpcinfo $words: 4,097 items"
}

# ITEM-1
# At most 4,096 rows are shown, and look-ups and forwarded calls of a version: one more is too many, and the lines before it
# stand, of which a summary has none.
run_rpcinfo_longest_lists() {
    local longest=tests/rows-rpcinfo/rpcinfo_json_longest_row row=000000010000000700000001 netid=0000000374637000 zeros numbers
    zeros=$(printf '%0120d' 0)
    numbers=$(printf 'info%s\nset 0 unset 0' "$(printf ' 0%.0s' {1..13})")
    { echo '   program   vers proto  port'; yes '         7      1 udp    2049' | head -n 4096; } > "$work/wanted"
    cp "$work/wanted" "$work/wanted-of-more"
    run_rpcinfo_longest_list -p ${row}0000001100000801
    printf '%s\n' '   program version(s) netid(s)                         service     owner' \
        '         7  1         tcp                              -           -' > "$work/wanted"
    : > "$work/wanted-of-more"
    run_rpcinfo_longest_list --summary $row${netid}0000000000000000
    { printf 'version 2\n%s\n' "$numbers"; yes 'addr 7 1 tcp 0 0' | head -n 4096; } > "$work/wanted-of-more"
    { cat "$work/wanted-of-more"; printf 'version %s\n'"$numbers\n" 3 4; } > "$work/wanted"
    run_rpcinfo_longest_list -m ${row}0000000000000000$netid "$zeros" "$(printf '%0280d' 0)"
    sed -i 's/^addr 7 1 tcp 0 0/call 7 1 0 tcp 0 0 0/' "$work/wanted" "$work/wanted-of-more"
    run_rpcinfo_longest_list -m ${row}00000000000000000000000000000000$netid "${zeros}00000000" "$(printf '%0272d' 0)"
    row=$(tr -d '\n' < $longest.input) # behind its mark and its head, and before the end of the list
    yes "$(cat $longest.expected)" | head -n 4096 | tee "$work/wanted" > "$work/wanted-of-more"
    run_rpcinfo_longest_list --json "${row:56:-8}"
}

# HEX-2
# A text has at most 67,108,864 bytes: one more is not read, whatever it holds.
run_rpcinfo_longest_texts() {
    local base=tests/rows-rpcinfo/rpcinfo_port_table
    { cat $base.input; head -c 67108864 /dev/zero | tr '\0' ' '; } | head -c 67108864 > "$work/events"
    run_rpcinfo "$work/events" -p -
    as_wanted $base.expected /dev/null 0
    judge $? "rpcinfo: a text of 67,108,864 bytes"
    echo 'rpcinfo: read failed' > "$work/wanted"
    echo >> "$work/events"
    run_rpcinfo "$work/events" -p -
    as_wanted /dev/null "$work/wanted" 1
    judge $? "rpcinfo: a text of 67,108,865 bytes"
}

# DATA-2
# Empty fragments without end: 16,777,216 bytes are read, and that no more are is another fault than that no more are there.
run_rpcinfo_endless_reply() {
    echo 'rpcinfo: read failed' > "$work/wanted"
    head -c 33554432 /dev/zero | tr '\0' 0 > "$work/events"
    run_rpcinfo "$work/events" -p -
    as_wanted /dev/null "$work/wanted" 1
    judge $? "rpcinfo: a record that goes on behind 16,777,216 bytes"
}

# DATA-3
run_rpcinfo_long_reply_cut_off() {
    echo 'rpcinfo: unreadable reply' > "$work/wanted"
    head -c 33554424 /dev/zero | tr '\0' 0 > "$work/events"
    run_rpcinfo "$work/events" -p -
    as_wanted /dev/null "$work/wanted" 1
    judge $? "rpcinfo: a record that is cut off before"
}

# STATUS-3
# A word that is no text can't be read.
run_rpcinfo_word_without_text() {
    echo 'rpcinfo: a word is no text' > "$work/wanted"
    run_rpcinfo /dev/null $'\xff'
    as_wanted /dev/null "$work/wanted" 2
    judge $? "rpcinfo: a word that is no text"
}

# Status 0 says that the output was written out.
run_rpcinfo_to_full_device() {
    echo 'rpcinfo: write failed' > "$work/wanted"
    "$rpcinfo" -p - < tests/rows-rpcinfo/rpcinfo_port_table.input > /dev/full 2> "$work/stderr"
    got=$?
    : > "$work/stdout"
    as_wanted /dev/null "$work/wanted" 1
    judge $? "rpcinfo: an output that cannot be written"
}

run_rpcinfo_of_a_folder() {
    echo 'rpcinfo: read failed' > "$work/wanted"
    run_rpcinfo tests -p -
    as_wanted /dev/null "$work/wanted" 1
    judge $? "rpcinfo: an input that cannot be read"
}

run_rpcinfo_help() {
    run_rpcinfo /dev/null --help
    [ "$got" -eq 0 ] && [ ! -s "$work/stderr" ] && grep -q -e '--uid' "$work/stdout"
    judge $? "the help of rpcinfo"
    echo "rpcinfo $version" > "$work/wanted"
    run_rpcinfo /dev/null --version
    as_wanted "$work/wanted" /dev/null 0
    judge $? "the version of rpcinfo"
}

# ---- which are run

# What is believed gives the outputs of each row too, and tests/unreached has the clauses that no row reaches.
run_rows_by_the_model() {
    python3 -B tests/run-model.py
    judge $? "the definitions that are believed, run over the rows"
}

run_rpcbind_over_files() {
    run_rows
    run_word_without_text
    run_full_device
    run_input_that_cannot_be_read
    run_with_little_memory
    run_many_short_outputs
}

run_rpcinfo_over_files() {
    run_rpcinfo_rows
    run_rpcinfo_longest_lists
    run_rpcinfo_word_without_text
    run_rpcinfo_to_full_device
    run_rpcinfo_of_a_folder
    run_rpcinfo_help
}

portless+=(run_rpcinfo_endless_reply run_rpcinfo_long_reply_cut_off run_rpcinfo_longest_texts run_longest_inputs
    run_rows_by_the_model run_rpcbind_over_files run_many_events run_shortest_outputs_of_bytes run_rpcinfo_over_files)
of_rpcinfo+=(run_rpcinfo_endless_reply run_rpcinfo_long_reply_cut_off run_rpcinfo_longest_texts run_rpcinfo_over_files)
