#!/usr/bin/env bash
# Times the built program, and prints the time of a call: of 1,000 TCP NULL calls of 40 bytes in single-byte pieces, of the
# same in one piece each, and of 10,000 datagram GETPORTs over 300 rows; and that of a row in 1,000 DUMPs of 4,096 rows over
# TCP, fragment by fragment, without the SETs of these rows. Then tests/bench-keep.py times SETs of a daemon that keeps its
# rows, beside one that does not; tests/bench-beside.py calls and lists, beside the least server; and tests/bench-debian.py
# connections from this machine, beside Debian's rpcbind. Words are parts, in place of all: replay, keep, beside, debian.
set -eu
cd "$(dirname "$0")/.."
. tests/beside.sh

program=${PROGRAM:-crates/rpcbind/out/rpcbind}
rpcinfo=${RPCINFO:-crates/rpcinfo/out/rpcinfo}
work=$(mktemp -d)
trap 'rm -rf "$work"' EXIT
[ -x "$program" ] || { echo "no program $program: run 'make' first"; exit 1; }

# a NULL call of version 2 as a record of one fragment: header, xid, CALL, 2, 100000, 2, 0, and four zero words
call=80000028$(printf '%08x' 1 0 2 100000 2 0 0 0 0 0)

single_bytes() {
    echo 'open 0 127.0.0.1:900'
    for _ in $(seq 1000); do
        for ((i = 0; i < ${#call}; i += 2)); do echo "bytes 0 1 ${call:i:2}"; done
        echo 'gave 0 1 28'
    done
}

whole_calls() {
    echo 'open 0 127.0.0.1:900'
    for _ in $(seq 1000); do
        echo "bytes 0 1 $call"
        echo 'gave 0 1 28'
    done
}

# SETs of this many programs
sets() {
    for i in $(seq "$1"); do
        printf 'datagram 0 127.0.0.1:900 %s\n' "$(printf '%08x' "$i" 0 2 100000 2 1 0 0 0 0 $((200000 + i)) 1 6 2049)"
    done
}

getports() {
    sets 294
    local ask
    ask=$(printf '%08x' 1 0 2 100000 2 3 0 0 0 0 200294 1 6 0)
    for _ in $(seq 10000); do echo "datagram 0 127.0.0.1:900 $ask"; done
}

# a DUMP of version 2 shows 4,096 rows in 81,948 bytes: 80 fragments of 1,024 bytes, and one of 28
dumps() {
    local dump
    dump=$(
        echo "bytes 0 1 80000028$(printf '%08x' 1 0 2 100000 2 4 0 0 0 0)"
        for _ in $(seq 80); do echo 'gave 0 1 1028'; done
        echo 'gave 0 1 32'
    )
    for _ in $(seq 1000); do echo "$dump"; done
}

# Runs the program over a file of events, and prints how many nanoseconds it took.
nanoseconds() {
    local begin end
    begin=$(date +%s%N)
    "$program" replay "$@" < "$work/events" > "$work/outputs"
    end=$(date +%s%N)
    echo $((end - begin))
}

# The time for each of this many calls.
time_run() {
    local name=$1 calls=$2 taken
    taken=$(nanoseconds)
    echo "$name: $((taken / calls / 1000)).$(printf '%03d' $((taken / calls % 1000))) microseconds per call"
}

time_dumps() {
    local before all
    { echo 'open 0 127.0.0.1:900'; sets 4090; } > "$work/events"
    before=$(nanoseconds --rows 4096)
    dumps >> "$work/events"
    all=$(nanoseconds --rows 4096)
    echo "1,000 DUMPs of 4,096 rows: $(((all - before) / 4096000)) nanoseconds per row"
}

run_replay() {
    single_bytes > "$work/events"
    time_run '1,000 TCP calls in single bytes' 1000
    whole_calls > "$work/events"
    time_run '1,000 TCP calls in one piece' 1000
    getports > "$work/events"
    time_run '10,000 GETPORTs over 300 rows' 10000
    time_dumps
}

run_keep() {
    python3 -B tests/bench-keep.py "$program"
}

run_beside() {
    python3 -B tests/bench-beside.py "$program"
}

# In namespaces of their own, as Debian's takes port 111 and files of /run.
run_debian() {
    if has_namespaces; then
        "${namespaces[@]}" sh -c 'mount -t tmpfs tmpfs /run && mkdir /run/rpcbind && ip link set lo up && exec "$@"' sh \
            python3 -B tests/bench-debian.py "$program" "$rpcinfo"
    else
        echo "skipped: connections beside Debian's rpcbind: that wants root, unshare and ip"
    fi
}

[ $# -gt 0 ] || set -- replay keep beside debian
for part in "$@"; do
    if [ "$part" = replay ] || command -v python3 > /dev/null; then
        "run_$part"
    else
        echo "skipped: $part: there is no python3"
    fi
done
