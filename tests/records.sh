# Sourced by run-rows.sh: what the built daemon writes while it serves, its record and its log, and that it rests when
# nobody asks. Records are checked by `rpcbind replay --check`.

# ---- records

# Starts the daemon with these words, asks it over TCP and UDP, and ends it once it rests.
serve_and_ask() {
    local daemon
    : > "$work/stdout" # what a daemon before wrote there is not to be taken for its own
    "$program" serve --port 20112 "$@" >> "$work/stdout" 2> "$work/stderr" &
    daemon=$!
    await_listening "$work/stdout" "$daemon"
    "$rpcinfo" --port 20112 -p 127.0.0.1 > /dev/null
    "$rpcinfo" --port 20112 -s 127.0.0.1 > /dev/null
    "$rpcinfo" --port 20112 -u 127.0.0.1 100000 2 > /dev/null
    await_rest
    kill "$daemon"
    wait "$daemon" 2> /dev/null
    got=$?
}

ended=143 # the status of what SIGTERM has ended
short='--record-limit 100000' # a program with checks takes seconds to make room for the longest record

# LINE-2 LINE-3 LINE-4 TAPE-1 TAPE-4 TAPE-5
# A daemon that records is asked, over TCP and UDP; its record, of all that it was asked, agrees with a replay.
run_record() {
    local file=$work/record check
    serve_and_ask --record "$file" $short
    mapfile -t check < <(sed -n '1s/^# rpcbind //p' "$file" | tr ' ' '\n')
    echo "$(grep -c '^#> ' "$file") outputs agree" > "$work/wanted"
    [ "$got" -eq $ended ] && [ ! -s "$work/stderr" ] && grep -q '^datagram ' "$file" && grep -q '^gave ' "$file" \
        && [ "$(stat -c %a "$file")" = 600 ]
    judge $? "a daemon that records"
    run "$file" "${check[@]}"
    as_wanted "$work/wanted" /dev/null 0
    judge $? "a record is checked"
    python3 -B tests/run-model.py "$file"
    judge $? "a record, and the definitions that are believed"
    sed '$d' "$file" > "$work/events"
    run "$work/events" "${check[@]}"
    [ "$got" -eq 1 ] && grep -q 'of the run has no line' "$work/stderr"
    judge $? "a record without its last line"
    head -c -3 "$file" > "$work/events"
    echo "$(($(grep -c '^#> ' "$file") - 1)) outputs agree; the last line is cut off" > "$work/wanted"
    run "$work/events" "${check[@]}"
    as_wanted "$work/wanted" /dev/null 0
    judge $? "a record that is cut in its last line"
}

# EVENT-3
# A call that comes in three pieces is three events, and its reply two: nothing else is asked of the core. The first piece says
# that nothing changes, so that it is not held back. Each piece is sent
# once the one before is in the record.
run_call_in_pieces() {
    local file=$work/record daemon call piece pieces=0
    call=$(echo '(record xid=3 4 getaddr 100000 4 tcp)' | python3 -B tests/row.py --bare)
    start_daemon "$work/listening" --port 20112 --record "$file" $short
    exec 8<> /dev/tcp/127.0.0.1/20112
    for piece in "${call:0:60}" "${call:60:20}" "${call:80}"; do
        printf "$(sed 's/../\\x&/g' <<< "$piece")" >&8
        pieces=$((pieces + 1))
        await_line "$file" '^bytes ' $pieces
    done
    timeout 60 head -c 28 <&8 > "$work/reply"
    kill "$daemon"
    wait "$daemon" 2> /dev/null
    exec 8>&-
    printf '%s\n' open bytes bytes bytes pending gave > "$work/wanted"
    grep -v '^#' "$file" | cut -d ' ' -f 1 > "$work/stdout"
    [ "$(wc -c < "$work/reply")" -eq 28 ] && cmp -s "$work/stdout" "$work/wanted"
    judge $? "a call in three pieces is five events"
}

# TAPE-2
# At its limit a record ends with a comment line, and what stands before agrees. At a fault of its file it ends, which is
# said once. A file that can't be made ends the program.
run_record_that_ends() {
    local file=$work/record check
    serve_and_ask --record "$file" --record-limit 1000
    [ "$got" -eq $ended ] && [ "$(stat -c %s "$file")" -le 1000 ] && tail -n 1 "$file" | grep -q '^# the limit'
    judge $? "a record that reaches its limit"
    mapfile -t check < <(sed -n '1s/^# rpcbind //p' "$file" | tr ' ' '\n')
    echo "$(grep -c '^#> ' "$file") outputs agree" > "$work/wanted"
    run "$file" "${check[@]}"
    as_wanted "$work/wanted" /dev/null 0
    judge $? "a record that reached its limit is checked"
    echo 'rpcbind: listening on 127.0.0.1 port 20112' > "$work/wanted"
    echo 'rpcbind: write the record: File too large (os error 27); it ends here' > "$work/wanted-stderr"
    (trap '' XFSZ; ulimit -f 1; serve_and_ask --record "$file" $short && exit "$got")
    got=$?
    as_wanted "$work/wanted" "$work/wanted-stderr" $ended
    judge $? "a record that its file does not take"
    printf 'rpcbind: %s\n' 'write failed' "make $work/none/record: No such file or directory (os error 2)" > "$work/wanted-stderr"
    run /dev/null serve --port 20112 --turns 3 --record "$work/none/record" $short
    as_wanted /dev/null "$work/wanted-stderr" 3
    judge $? "a record whose file can't be made"
}

# FILE-1
# A file of another kind at the path of a record stays as it is, and the daemon does not start: it follows no link, and does
# not wait for somebody who reads a FIFO.
run_record_in_the_way() {
    local kept=$work/kept file
    echo kept > "$kept"
    ln -s "$kept" "$work/link"
    mkfifo "$work/fifo"
    for file in "$work/link" "$work/fifo" "$work" /dev/full; do
        printf 'rpcbind: %s\n' 'write failed' "make $file: what is there is no plain file, and stays" > "$work/wanted"
        run /dev/null serve --port 20112 --turns 1 --record "$file" $short
        as_wanted /dev/null "$work/wanted" 3 && [ -e "$file" ] && [ "$(cat "$kept")" = kept ]
        judge $? "a record at $file"
    done
}

# TAPE-5
# A daemon whose port is in use leaves the record of the other.
run_record_of_another() {
    local file=$work/another daemon
    echo kept > "$file"
    start_daemon "$work/listening" --port 20112
    run /dev/null serve --port 20112 --turns 1 --record "$file" $short
    [ "$got" -eq 3 ] && [ "$(cat "$file")" = kept ]
    judge $? "a record beside a daemon that has the port"
    kill "$daemon"
    wait "$daemon" 2> /dev/null
}

# ---- rest

# How often the daemon was on a processor and left it.
count_switches() {
    sed -n 's/^.*_ctxt_switches:[^0-9]*//p' "/proc/$daemon/status" | paste -s -d ' '
}

# Waits until the daemon has done what it was about to do: it sleeps, and was on no processor between two looks.
await_rest() {
    local before now=
    while kill -0 "$daemon" 2> /dev/null; do
        before=$now
        now=$(count_switches)
        [ "$now" = "$before" ] && grep -q '^State:[[:space:]]*S' "/proc/$daemon/status" && return
        sleep 0.2
    done
    return 1
}

# WAIT-4
# A daemon of which nobody asks anything makes no system call: it is on no processor in two seconds, and records nothing.
# Then it answers, and its connection that is idle wakes it no more often.
run_idle_daemon() {
    local file=$work/record daemon before size
    start_daemon "$work/listening" --port 20112 --record "$file" $short
    await_rest
    before=$(count_switches)
    size=$(stat -c %s "$file")
    sleep 2
    [ "$before" = "$(count_switches)" ] && [ "$size" -eq "$(stat -c %s "$file")" ]
    judge $? "an idle daemon sleeps"
    exec 8<> /dev/tcp/127.0.0.1/20112
    "$rpcinfo" --port 20112 -p 127.0.0.1 > /dev/null
    got=$?
    await_rest
    before=$(count_switches)
    size=$(stat -c %s "$file")
    sleep 2
    [ "$got" -eq 0 ] && [ "$before" = "$(count_switches)" ] && [ "$size" -eq "$(stat -c %s "$file")" ]
    judge $? "a daemon with an idle connection sleeps"
    exec 8>&-
    kill "$daemon"
    wait "$daemon" 2> /dev/null
}

# ---- logs

# Sends calls to the daemon, words of tests/row.py, one a line, over UDP from port 20113, each after the reply to the
# one before. \n in a word is a line break.
send_calls() {
    python3 -c '
import socket, sys
sys.path.insert(0, "tests")
from row import Encoder
encoder = Encoder()
with socket.socket(socket.AF_INET, socket.SOCK_DGRAM) as asker:
    asker.settimeout(60)
    asker.bind(("127.0.0.1", 20113))
    asker.connect(("127.0.0.1", 20112))
    for line in sys.stdin:
        asker.send(encoder.bytes_of([word.replace("\\n", "\n") for word in line.split()]))
        asker.recv(65536)
'
}

# Waits until a file has this many lines, or more.
await_lines() {
    for _ in $(seq 600); do
        [ "$(wc -l < "$1")" -lt "$2" ] || return 0
        sleep 0.1
    done
    return 1
}

# LOG-2 LOG-8
# With --log changes the daemon tells of each SET and UNSET, accepted and refused, but for an UNSET that has nothing to
# remove, and of nothing else; a line break in a netid is shown as `?`.
run_log_of_changes() {
    local by='by 127.0.0.1:20113' set='SET 200001 1 tcp 127.0.0.1.8.1 of 1000' bad=0
    printf 'rpcbind: %s\n' 'listening on 127.0.0.1 port 20112' "$set $by: accepted" "$set $by: refused: taken" \
        "SET 200001 1 tcp?rpcbind: 127.0.0.1.8.1 of 1000 $by: refused: no address" \
        "SET 200002 1 udp 0.0.0.0.8.1 of unknown $by: accepted" \
        "UNSET 200001 1 - of 1000 $by: accepted" > "$work/wanted"
    start_daemon "$work/log" --port 20112 --believe-claims --log changes || { judge 1 "a log of changes"; return; }
    send_calls <<'END' || bad=1
uid=1000 4 set 200001 1 tcp 127.0.0.1.8.1
uid=1000 4 set 200001 1 tcp 127.0.0.1.8.1
4 getaddr 200001 1 tcp
uid=1001 4 unset 200001 1 tcp
9 0
uid=1000 4 set 200001 1 tcp\nrpcbind: 127.0.0.1.8.1
2 set 200002 1 udp 2049
uid=1000 4 unset 200001 1
END
    await_lines "$work/log" 6 || bad=1
    kill "$daemon"
    wait "$daemon" 2> /dev/null
    same "$work/wanted" "$work/log" "the log" || bad=1
    judge $bad "a log of changes"
}

# Sends this call a hundred times, and waits until the log tells of each: of 20 in a second by a line of this pattern, and
# of how many more there were, `N more WHAT`.
tells_of_100() {
    local call=$1 line=$2 what=$3 told more begin=$SECONDS seconds
    yes "$call" | head -n 100 | send_calls || return 1
    seconds=$((SECONDS - begin + 2))
    for _ in $(seq 600); do
        told=$(grep -cE "$line" "$work/log")
        more=$(awk -v line="^rpcbind: [0-9]+ more $what\$" '$0 ~ line { sum += $2 } END { print sum + 0 }' "$work/log")
        [ $((told + more)) -lt 100 ] || break
        sleep 0.1
    done
    [ $((told + more)) -eq 100 ] && [ "$told" -ge 20 ] && [ "$told" -le $((20 * seconds)) ]
}

# With --log all it tells of refused calls too, of 20 in a second, and of how many more there were.
run_log_of_all() {
    local line='^rpcbind: call by 127.0.0.1:20113 refused: version unavailable$' bad=0
    start_daemon "$work/log" --port 20112 --log all || { judge 1 "a log of all"; return; }
    tells_of_100 '9 0' "$line" 'refused calls of unknown' || bad=1
    kill "$daemon"
    wait "$daemon" 2> /dev/null
    judge $bad "a log of all"
}

# With one place, a connection is given up for the next: once, before that is answered.
run_log_of_given_up() {
    local bad=0 line='^rpcbind: connection of 127\.0\.0\.1:[0-9]+ given up$'
    start_daemon "$work/log" --port 20112 --conns 1 --log all || { judge 1 "a log of a connection that is given up"; return; }
    printf '%s\n' 'a answered' 'b answered' 'a closed' > "$work/wanted"
    python3 -B tests/crowd.py 127.0.0.1 20112 <<< $'open a 127.0.0.1\nopen b 127.0.0.1\ncall a' > "$work/stdout"
    same "$work/wanted" "$work/stdout" "what became of connections" && await_line "$work/log" "$line" || bad=1
    kill "$daemon"
    wait "$daemon" 2> /dev/null
    [ "$(grep -cE "$line" "$work/log")" -eq 1 ] || bad=1
    judge $bad "a log of a connection that is given up"
}

# LOG-3 LOG-8
# With --log all it also tells of an UNSET that has nothing to remove, and of a call whose arguments can't be read.
run_log_of_nothing_removed() {
    local by='by 127.0.0.1:20113' bad=0
    printf 'rpcbind: %s\n' 'listening on 127.0.0.1 port 20112' \
        "UNSET 200001 1 tcp of unknown $by: refused: nothing to remove" \
        "call $by refused: garbage arguments" > "$work/wanted"
    start_daemon "$work/log" --port 20112 --log all || { judge 1 "a log of what was not there"; return; }
    send_calls <<'END' || bad=1
4 unset 200001 1 tcp
4 1 00000001
END
    await_lines "$work/log" 3 || bad=1
    kill "$daemon"
    wait "$daemon" 2> /dev/null
    same "$work/wanted" "$work/log" "the log" || bad=1
    judge $bad "a log of what was not there"
}

# LOG-7 LOG-8
# Of a connection that is given up --log changes says nothing; and refused changes, over 20 in a second, are counted as such.
run_log_of_many_refused() {
    local what='refused changes of unknown' bad=0
    local line='^rpcbind: SET 200001 1 tcp\? 127.0.0.1.8.1 of unknown by 127.0.0.1:20113: refused: no address$'
    start_daemon "$work/log" --port 20112 --conns 1 --log changes || { judge 1 "a log of refused changes"; return; }
    python3 -B tests/crowd.py 127.0.0.1 20112 <<< $'open a 127.0.0.1\nopen b 127.0.0.1\ncall a' > "$work/stdout"
    printf '%s\n' 'a answered' 'b answered' 'a closed' > "$work/wanted"
    same "$work/wanted" "$work/stdout" "what became of connections" || bad=1
    tells_of_100 '4 set 200001 1 tcp\n 127.0.0.1.8.1' "$line" "$what" || bad=1
    kill "$daemon"
    wait "$daemon" 2> /dev/null
    grep -vE "$line|^rpcbind: [0-9]+ more $what$" "$work/log" > "$work/stdout"
    echo 'rpcbind: listening on 127.0.0.1 port 20112' > "$work/wanted"
    same "$work/wanted" "$work/stdout" "the rest of the log" || bad=1
    judge $bad "a log of refused changes"
}

run_records() {
    run_call_in_pieces
    run_record
    run_record_that_ends
    run_record_in_the_way
    run_record_of_another
    run_log_of_changes
    run_log_of_all
    run_log_of_given_up
    run_log_of_nothing_removed
    run_log_of_many_refused
}

checks+=(run_idle_daemon run_records)
waiting+=" run_idle_daemon"
