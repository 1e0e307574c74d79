#!/usr/bin/env bash
# Runs each form of the built rpcinfo beside that of Debian's, against the built daemon and against Debian's rpcbind, in a
# network, mount and process namespace of its own for each, and prints what both write and how both end. It judges nothing. Needs
# root, `unshare`, `ip`, and Debian's package rpcbind.
set -u
here=$(cd "$(dirname "$0")/.." && pwd) || exit 1
cd "$here" || exit 1

. tests/daemon.sh

program=$PWD/crates/rpcbind/out/rpcbind
ours=$PWD/crates/rpcinfo/out/rpcinfo
theirs=$(dpkg -L rpcbind 2> /dev/null | grep '/rpcinfo$' | head -n 1)
their_daemon=$(dpkg -L rpcbind 2> /dev/null | grep 'bin/rpcbind$' | head -n 1)

if [ "${1:-}" != --inside ]; then
    [ -x "$program" ] && [ -x "$ours" ] || { echo "no programs: run 'make' first"; exit 1; }
    [ -x "$theirs" ] || { echo "skipped: Debian's rpcbind is not installed"; exit 0; }
    for daemon in ours theirs; do
        unshare --net --mount --propagation private --pid --fork --kill-child --mount-proc \
            "$here/tests/run-forms.sh" --inside $daemon
    done
    exit
fi

work=$(mktemp -d) || exit 1
trap 'rm -rf "$work"' EXIT
mount -t tmpfs tmpfs /run || exit 1
mkdir -p /run/rpcbind
ip link set lo up || exit 1

show() {
    local status
    echo "    \$ $1 ${*:3}"
    timeout 20 "$2" "${@:3}" > "$work/written" 2>&1 < /dev/null
    status=$?
    sed 's/^/        /' "$work/written"
    [ "$status" -eq 0 ] || echo "        (status $status)"
}

# Both commands, our words and theirs after `--`.
both() {
    local words=()
    while [ "$1" != -- ]; do words+=("$1"); shift; done
    shift
    show ours "$ours" "${words[@]}"
    [ "$#" -eq 0 ] || show theirs "$theirs" "$@"
}

run_forms() {
    both -- # theirs asks the local socket
    both --local /run/rpcbind.sock --names --
    both 127.0.0.1 -- 127.0.0.1
    both ::1 -- ::1
    both --names localhost -- localhost
    both -p 127.0.0.1 -- -p 127.0.0.1
    both -p --names 127.0.0.1 --
    both -s 127.0.0.1 --
    both --summary 127.0.0.1 -- -s 127.0.0.1
    both --summary --local /run/rpcbind.sock -- -s
    both -l 127.0.0.1 100000 4 -- -l 127.0.0.1 100000 4
    both -l 127.0.0.1 portmapper 4 -- -l 127.0.0.1 portmapper 4
    both -m 127.0.0.1 -- -m 127.0.0.1
    both --json 127.0.0.1 --
    both --json -p 127.0.0.1 --
    both --json -l 127.0.0.1 100000 4 --
    both --json -m 127.0.0.1 --
    both -t 127.0.0.1 100000 -- -t 127.0.0.1 100000
    both -t 127.0.0.1 portmapper 2 -- -t 127.0.0.1 portmapper 2
    both -t 127.0.0.1 100000 9 -- -t 127.0.0.1 100000 9
    both -t 127.0.0.1 200001 -- -t 127.0.0.1 200001
    both -t ::1 100000 4 -- -t ::1 100000 4
    both -u 127.0.0.1 100000 -- -u 127.0.0.1 100000
    both -u localhost 100000 3 -- -u localhost 100000 3
    both -n 111 -t 127.0.0.1 100000 -- -n 111 -t 127.0.0.1 100000
    both -n 9 -t 127.0.0.1 100000 -- -n 9 -t 127.0.0.1 100000
    both -n 9 -u 127.0.0.1 100000 -- -n 9 -u 127.0.0.1 100000
    for netid in tcp udp; do
        both -T $netid 127.0.0.1 100000 -- -T $netid 127.0.0.1 100000
        both -T ${netid}6 ::1 100000 -- -T ${netid}6 ::1 100000
        both -a 127.0.0.1.0.111 -T $netid 100000 -- -a 127.0.0.1.0.111 -T $netid 100000
        both -a ::1.0.111 -T ${netid}6 100000 4 -- -a ::1.0.111 -T ${netid}6 100000 4
    done
    both -d 200001 1 -- -d 200001 1
    both -d -T tcp 100000 4 -- -d -T tcp 100000 4
    both -p nosuch.invalid -- -p nosuch.invalid
    both -t 127.0.0.1 nosuch -- -t 127.0.0.1 nosuch
}

if [ "$2" = ours ]; then
    echo "== our daemon"
    start_daemon "$work/daemon" --port 111 --loopback6 --local /run/rpcbind.sock || exit 1
else
    echo "== Debian's daemon"
    "$their_daemon"
    sleep 1
fi
run_forms
