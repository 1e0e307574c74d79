#!/usr/bin/env bash
# Shows what of the built daemon is resident, at the default limits and on all kinds of listeners: after its start, and
# after a load (a million calls over all 64 connections, half of them on [::1], the same connections on the local socket
# if there is python3, and calls over UDP that fill its rows, ask for them, list them and are forwarded), which takes
# not a page more of its own. Pages of its file and of the C library's, which the system maps as they are run and can let
# go, count in what is resident alone. Where the system puts the library decides how many pages it maps beside those that
# are used: up to 300 kB more from start to start. So the daemon is started with its parts in fixed places (`setarch -R`),
# if that is there and allowed. The word, if there is one, is the path of another built program. The last line is 'N
# passed, N failed'; the status is 1 if one failed.
set -u
cd "$(dirname "$0")/.." || exit 1

. tests/daemon.sh

built=${1:-$PWD/crates/rpcbind/out/rpcbind}
port=20114
work=$(mktemp -d) || exit 1
program=$built
if setarch -R true 2> /dev/null; then
    program=$work/in-fixed-places
    printf '#!/bin/sh\nexec setarch -R %q "$@"\n' "$built" > "$program"
    chmod 755 "$program"
fi
passed=0
failed=0
daemon=

finish() {
    [ -z "$daemon" ] || kill "$daemon" 2> /dev/null
    rm -rf "$work"
}
trap finish EXIT

# Counts a check by the status given, and says what was checked.
judge() {
    if [ "$1" -eq 0 ]; then
        passed=$((passed + 1))
        echo "passed: $2"
    else
        failed=$((failed + 1))
        echo "failed: $2"
    fi
}

# So many kilobytes are resident, counted page by page.
resident() {
    awk '/^Rss:/ { print $2 }' "/proc/$daemon/smaps_rollup"
}

# So many of them are its own, and no file's.
own() {
    awk '/^Anonymous:/ { print $2 }' "/proc/$daemon/smaps_rollup"
}

# Writes numbers as words of four bytes.
words() {
    printf "$(printf '%08x' "$@" | sed 's/../\\x&/g')"
}

# Opens all connections, and has each answer 1,000 NULL calls at a time, as records of 40 bytes.
call_over_tcp() {
    local sockets=() socket xid round
    for xid in $(seq 1000); do
        words $((0x80000028)) "$xid" 0 2 100000 2 0 0 0 0 0
    done > "$work/calls"
    for _ in $(seq 32); do
        exec {socket}<> /dev/tcp/127.0.0.1/$port
        sockets+=("$socket")
        exec {socket}<> /dev/tcp/::1/$port
        sockets+=("$socket")
    done
    for round in $(seq 16); do
        for socket in "${sockets[@]}"; do
            cat "$work/calls" >&"$socket"
            [ "$(timeout 20 head -c 28000 <&"$socket" | wc -c)" -eq 28000 ] || return 1
        done
    done
    for socket in "${sockets[@]}"; do exec {socket}>&-; done
}

# Opens all connections on the local socket, and has each answer 1,000 NULL calls.
call_on_local_socket() {
    timeout 60 python3 - "$work/local" "$work/calls" << 'END'
import socket, sys

calls = open(sys.argv[2], "rb").read()
clients = [socket.socket(socket.AF_UNIX) for _ in range(64)]
for client in clients:
    client.connect(sys.argv[1])
for client in clients:
    client.sendall(calls)
    got = 0
    while got < 28000:
        piece = client.recv(28000 - got)
        if not piece:
            sys.exit(1)
        got += len(piece)
END
}

# Sends the longest datagram there can be, which is no call; sets rows until none has room, asks for each, lists them, and
# calls a program of the loopback that does not answer, as often as calls are forwarded at a time.
call_over_udp() {
    local socket i
    exec {socket}<> /dev/udp/127.0.0.1/$port
    dd if=/dev/zero bs=65507 count=1 >&"$socket" 2> /dev/null || return 1
    words 1 0 2 100000 2 1 0 0 0 0 300001 1 17 2049 >&"$socket"
    for i in $(seq 1100); do words "$i" 0 2 100000 2 1 0 0 0 0 $((200000 + i)) 1 6 2049 >&"$socket"; done
    for i in $(seq 1100); do words "$i" 0 2 100000 2 3 0 0 0 0 $((200000 + i)) 1 6 0 >&"$socket"; done
    for i in 2 3 4; do words "$i" 0 2 100000 "$i" 4 0 0 0 0 >&"$socket"; done
    for i in $(seq 17); do words "$i" 0 2 100000 4 10 0 0 0 0 300001 1 0 0 >&"$socket"; done
    timeout 5 head -c 28 <&"$socket" > /dev/null
    local status=$?
    exec {socket}>&-
    return $status
}

[ -x "$built" ] || { echo "no program $built: run 'make' first"; exit 1; }
start_daemon "$work/daemon" --port $port --bind 127.0.0.1 --bind 127.0.0.2 --loopback6 --local "$work/local" --forwards 16 || exit 1
before=$(own)
echo "resident after the start: $(resident) kB, its own $before kB"
call_over_tcp
judge $? "1,024,000 calls over 64 connections are answered"
if command -v python3 > /dev/null; then
    call_on_local_socket
    judge $? "64,000 calls over 64 connections on the local socket are answered"
else
    echo "skipped: there is no python3 for the local socket"
fi
call_over_udp
judge $? "calls over UDP are answered"
after=$(own)
all=$(resident)
echo "resident after the load: $all kB, its own $after kB"
[ "$all" -le 5120 ]
judge $? "at most 5,120 kB"
[ "$after" -eq "$before" ]
judge $? "the load takes not a page more of its own"
kill -0 "$daemon" 2> /dev/null
judge $? "the daemon serves on"
echo "$passed passed, $failed failed"
[ "$failed" -eq 0 ]
