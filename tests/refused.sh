# Memory that is refused: the built programs with tests/refuse.c in front of the C library, which refuses them one allocation,
# the first in the first run, the second in the next, and so on until a run asks for no more. Sourced by tests/run-rows.sh.
#
# A run that is refused memory does all that it does otherwise, or ends with status 1 and the one line that says so;
# what it has written then is a front of what it writes otherwise.

# Runs a command over a file, and refuses it the allocation of this number.
run_refused() {
    local number=$1 input=$2
    shift 2
    REFUSE=$number LD_PRELOAD=$work/refuse.so "$@" < "$input" > "$work/stdout" 2> "$work/stderr" 9> "$work/refused"
    got=$?
}

# Whether the last run did all, that is, wrote what $1 has, or was refused memory and says so.
is_right() {
    if [ "$got" -eq 0 ]; then
        as_wanted "$1" /dev/null 0
    else
        head -c "$(stat -c %s "$work/stdout")" "$1" > "$work/front"
        echo "$(basename "$2"): no memory" > "$work/line"
        as_wanted "$work/front" "$work/line" 1
    fi
}

# Refuses each allocation of a command over a file, which writes what $2 has.
refuse_in_turn() {
    local what=$1 wanted=$2 number=0 bad=0
    shift 2
    while [ "$bad" -eq 0 ]; do
        number=$((number + 1))
        run_refused "$number" "$@"
        [ -s "$work/refused" ] || break
        is_right "$wanted" "$2" || bad=1
    done
    [ "$bad" -eq 0 ] && [ "$number" -gt 1 ] && is_right "$wanted" "$2"
    judge $? "$what that is refused memory, at allocation $number"
}

# `replay` reads lines, makes a core and runs their events.
refuse_replay() {
    local row=tests/rows/forward_by_callit.events
    outputs_of "$row" > "$work/outputs"
    refuse_in_turn 'a replay' "$work/outputs" "$row" "$program" replay --conns 3
}

# `serve` makes a core and the places of its connections, and listens.
refuse_serve() {
    printf 'rpcbind: listening on %s\n' '127.0.0.1 port 20113' > "$work/served"
    refuse_in_turn 'a daemon' "$work/served" \
        /dev/null "$program" serve --port 20113 --conns 3 --rows 20 --forwards 3 --turns 1
}

# One that keeps rows reads them first, and sets them again.
refuse_kept() {
    echo 'datagram 0 127.0.0.1:0 (xid=0 4 set 200002 1 tcp 127.0.0.1.8.1)' | tests/row.py > "$work/kept"
    refuse_in_turn 'a daemon of kept rows' "$work/served" \
        /dev/null "$program" serve --port 20113 --conns 3 --rows 20 --turns 1 --keep "$work/kept"
}

# rpcinfo reads a reply, and shows it.
refuse_reply() {
    local row=tests/rows-rpcinfo/rpcinfo_rows words
    mapfile -t words < <(grep -v '^#' "$row.args")
    refuse_in_turn 'a reply' "$row.expected" "$row.input" "$rpcinfo" "${words[@]}"
}

# rpcinfo writes calls to a daemon, which has its memory, and shows the replies.
refuse_calls() {
    local daemon words
    : > "$work/told"
    "$program" serve --port 20114 >> "$work/told" 2>&1 &
    daemon=$!
    await_listening "$work/told" "$daemon" || { judge 1 "a daemon that rpcinfo calls"; return; }
    for words in '-p 127.0.0.1' '-u 127.0.0.1 100000' '-T udp 127.0.0.1 100000 4'; do
        "$rpcinfo" --port 20114 $words > "$work/rows" 2>&1
        refuse_in_turn "rpcinfo $words" "$work/rows" /dev/null "$rpcinfo" --port 20114 $words
    done
    kill "$daemon"
    wait "$daemon" 2> /dev/null
}

# EXIT-1
run_refused_memory() {
    if [ -n "$has_checks" ] || ! "${CC:-cc}" -O1 -shared -fPIC -o "$work/refuse.so" tests/refuse.c; then
        echo 'not run: memory that is refused'
        return
    fi
    refuse_replay
    refuse_serve
    refuse_kept
    refuse_reply
    refuse_calls
}

checks+=(run_refused_memory)
