# Sourced by run-rows.sh: what a running daemon does if a machine is short of something, and who may call it: on the
# local socket, and from which networks. tests/crowd.py holds connections, and tests/ask.py asks what rpcinfo does not.

# Waits until a file has a line for this pattern, this many times or more.
await_line() {
    for _ in $(seq 600); do
        [ "$(grep -cE "$2" "$1")" -lt "${3:-1}" ] || return 0
        sleep 0.1
    done
    echo "no line '$2' in $1"
    return 1
}

# Asks the daemon on port 20112 the lines of standard input by tests/ask.py, each of which has its answer after `: `.
asked_are() {
    cat > "$work/wanted-answers"
    PORT=20112 python3 -B tests/ask.py < "$work/wanted-answers" > "$work/answers"
    same "$work/wanted-answers" "$work/answers" answers
}

# ACCEPT-1 ACCEPT-2 LISTENER-1
# If no descriptor is left for a client that comes, it waits until there is one, though nothing else comes; calls over
# UDP are answered meanwhile, and the fault is said once.
run_without_descriptors() {
    local daemon client free=0 bad=0
    if ! command -v prlimit > /dev/null; then
        echo "descriptors that are used up are not tried: that wants prlimit"
        return
    fi
    start_daemon "$work/listening" --port 20112 || { judge 1 "a daemon whose descriptors are used up"; return; }
    while [ -e "/proc/$daemon/fd/$free" ]; do free=$((free + 1)); done
    prlimit --pid "$daemon" --nofile=$free:1024
    python3 -B tests/crowd.py 127.0.0.1 20112 <<< 'open a 127.0.0.1' > "$work/answered" &
    client=$!
    await_line "$work/listening" '^rpcbind: accept a connection: Too many open files \(os error 24\); it is tried again$' || bad=1
    "$rpcinfo" -n 20112 -u 127.0.0.1 100000 4 > /dev/null || bad=1
    [ ! -s "$work/answered" ] || bad=1
    prlimit --pid "$daemon" --nofile=1024
    await_line "$work/answered" '^a answered$' || bad=1
    [ "$(grep -c 'accept a connection' "$work/listening")" -eq 1 ] || bad=1
    judge $bad "a client waits until there is a descriptor"
    kill "$daemon"
    wait "$client" "$daemon" 2> /dev/null
}

# Puts a program that runs the built one in the place of `program`, with these of its calls of the system in a file. The
# status is 1 if there is no strace.
trace_calls() {
    strace -D -o /dev/null true 2> /dev/null || return 1
    printf '#!/bin/sh\nexec strace -D -o "%s" -e trace=%s "%s" "$@"\n' "$1" "$2" "$program" > "$work/tracing"
    chmod 755 "$work/tracing"
    program=$work/tracing
}

# TABLES-6
# Connections from this host that come at once are all served, and none waits for another, or for a deadline: no wait of
# the daemon's ends because its time is over.
run_connections_at_once() {
    local daemon program=$program is_traced=1
    trace_calls "$work/waits" epoll_wait,epoll_pwait || is_traced=
    start_daemon "$work/listening" --port 20112
    printf '%s answered\n' a b c d a > "$work/wanted"
    python3 -B tests/crowd.py 127.0.0.1 20112 > "$work/stdout" << 'END'
open a 127.0.0.1
open b 127.0.0.2
open c 127.0.0.1
open d 127.0.0.1
call a
END
    same "$work/wanted" "$work/stdout" "what became of connections"
    judge $? "connections that come at once"
    if [ "$is_traced" ]; then
        grep -q '^epoll_' "$work/waits" && ! grep -E '^epoll_p?wait\(.*, [1-9][0-9]*(, NULL, 8)?\) += 0$' "$work/waits"
        judge $? "connections that come at once wait for no deadline"
    else
        echo "that connections wait for no deadline is not tried: that wants strace"
    fi
    kill "$daemon"
    wait "$daemon" 2> /dev/null
}

# CLOSE-1
# A client whose events can't be shown is closed, for the core too: the one connection that it may have is there for the next.
run_unshown_client() {
    local daemon tracer
    start_daemon "$work/listening" --port 20112 --conns 1
    if inject epoll_ctl:error=ENOSPC:when=1; then
        printf '%s\n' 'a closed' 'b answered' > "$work/wanted"
        printf 'open %s 127.0.0.1\n' a b | python3 -B tests/crowd.py 127.0.0.1 20112 > "$work/stdout"
        same "$work/wanted" "$work/stdout" "what became of connections"
        judge $? "a client whose events can't be shown"
    else
        echo "a client whose events can't be shown is not tried: that wants strace, which may attach to a daemon"
    fi
    kill "$tracer" "$daemon" 2> /dev/null
    wait "$tracer" "$daemon" 2> /dev/null
}

# WAIT-6 EXIT-1
# Waits for events that fail for five seconds end the daemon. It says why, and its status is that of a failure, after which a
# service manager starts it again.
run_failing_waits() {
    local daemon tracer bad=0 fault='wait for events: Invalid argument (os error 22)'
    start_daemon "$work/listening" --port 20112
    "$rpcinfo" -n 20112 -u 127.0.0.1 100000 4 > /dev/null # a turn is over then, in which all is told that a start leaves
    if inject epoll_wait,epoll_pwait:error=EINVAL; then
        printf 'rpcbind: %s\n' 'listening on 127.0.0.1 port 20112' "$fault; it is tried again" 'socket failed' "$fault" > "$work/wanted"
        await_line "$work/listening" '^rpcbind: socket failed$' || { kill "$daemon"; bad=1; }
        wait "$daemon"
        [ $? -eq 1 ] && same "$work/wanted" "$work/listening" "what the daemon wrote" || bad=1
        judge $bad "waits for events that fail"
    else
        echo "waits for events that fail are not tried: that wants strace, which may attach to a daemon"
    fi
    kill "$tracer" "$daemon" 2> /dev/null
    wait "$tracer" "$daemon" 2> /dev/null
}

# A socket at the path of the local one whose queue is full answers: it stays, and the daemon does not start.
run_full_queue_in_the_way() {
    local path=$work/full.sock listener before
    python3 -c '
import signal, socket, sys
listener = socket.socket(socket.AF_UNIX)
listener.bind(sys.argv[1])
listener.listen(0)
waiting = []
try:
    while True:
        waiting.append(socket.socket(socket.AF_UNIX))
        waiting[-1].setblocking(False)
        waiting[-1].connect(sys.argv[1])
except BlockingIOError:
    print("listening", flush=True)
signal.pause()
' "$path" > "$work/listening" &
    listener=$!
    await_line "$work/listening" listening
    before=$(stat -c %i "$path")
    printf 'rpcbind: %s\n' 'socket failed' "bind $path: another program listens on it" > "$work/wanted"
    run /dev/null serve --port 20112 --turns 1 --local "$path"
    as_wanted /dev/null "$work/wanted" 3 && [ "$(stat -c %i "$path")" = "$before" ]
    judge $? "a socket whose queue is full in the way of the local socket"
    kill "$listener"
    wait "$listener" 2> /dev/null
}

# TRUST-12
# Who comes by the local socket is root, unless others could before its file had its mode; of 0.0.0.0 it is told the address
# that is announced. Once its file is opened to others, a line says so.
run_local_socket() {
    local path=$work/known.sock daemon mask owner listed
    for mask in 022 000; do
        owner=superuser
        [ $mask = 022 ] || owner=unknown
        umask $mask
        start_daemon "$work/listening" --port 20112 --bind 127.0.0.1 --bind 127.0.0.2 --announce 127.0.0.2 --local "$path"
        umask 022
        asked_are << END
local $path 4 set 200001 1 tcp 0.0.0.0.8.1: 1
local $path 4 getaddrlist 200001 1: tcp 127.0.0.2.8.1
tcp 127.0.0.1 4 getaddrlist 200001 1: tcp 127.0.0.1.8.1
tcp 127.0.0.2 4 getaddrlist 200001 1: tcp 127.0.0.2.8.1
END
        listed=$?
        [ $listed -eq 0 ] && "$rpcinfo" --port 20112 127.0.0.1 | grep -qx "200001 1 tcp 0.0.0.0.8.1 $owner"
        judge $? "who comes by the local socket, with umask $mask"
        if [ $mask = 022 ]; then
            chmod 666 "$path"
            asked_are <<< "local $path 4 set 200002 1 tcp 0.0.0.0.8.1: 1" \
                && await_line "$work/listening" "^rpcbind: $path was replaced, removed or opened to others: .* unknown until a restart$"
            judge $? "a local socket that is opened to others"
        fi
        kill "$daemon"
        wait "$daemon" 2> /dev/null
    done
}

# EVIDENCE-7
# Whoever registers over TCP from this machine is known though the kernel's table grows while it is read, by tests/grow.c in
# front of the C library: at its end the kernel shows the last lines again then, which are one connection's in every other
# SET of these.
run_growing_table() {
    local daemon program=$program numbers
    if [ -n "$has_checks" ] || ! "${CC:-cc}" -O1 -shared -fPIC -o "$work/grow.so" tests/grow.c; then
        echo 'not run: a table that grows while it is read'
        return
    fi
    printf '#!/bin/sh\nexec env LD_PRELOAD="%s" "%s" "$@" 9> "%s"\n' "$work/grow.so" "$program" "$work/grown" > "$work/growing"
    chmod 755 "$work/growing"
    program=$work/growing
    start_daemon "$work/listening" --port 20112 || { judge 1 "a daemon whose table grows"; return; }
    numbers=$(seq 200001 200030)
    printf 'tcp 127.0.0.1 4 set %s 1 tcp 127.0.0.1.8.1: 1\n' $numbers | asked_are
    judge $? "30 SETs while the table grows"
    [ -s "$work/grown" ] && ! "$rpcinfo" --port 20112 127.0.0.1 | grep -E '^2000[0-9]+ .* unknown$'
    judge $? "who registers while the table grows is known"
    kill "$daemon"
    wait "$daemon" 2> /dev/null
}

# BIND-4
# Beside a daemon at 0.0.0.0 no other program has a part of its port over UDP, though it would share it.
run_port_is_not_shared() {
    local daemon
    start_daemon "$work/listening" --port 20112 --bind 0.0.0.0
    python3 -c '
import errno, socket, sys
other = socket.socket(socket.AF_INET, socket.SOCK_DGRAM)
other.setsockopt(socket.SOL_SOCKET, socket.SO_REUSEADDR, 1)
try:
    other.bind(("127.0.0.9", 20112))
except OSError as error:
    sys.exit(error.errno != errno.EADDRINUSE)
sys.exit("another program has a part of the port")'
    judge $? "a port that is not shared"
    kill "$daemon"
    wait "$daemon" 2> /dev/null
}

# Whether a call over TCP (t) or UDP (u) to this address of the machine, and so from it, is answered, in these seconds.
is_answered() {
    timeout "${3:-60}" "$rpcinfo" --port 20112 "-$1" "$2" 100000 2 > /dev/null 2>&1
}

# The check's own network has an address in a network that is served and another one, which is announced. The other is not
# served: over TCP it is told so at once, by a connection that is closed.
callers_of_networks() {
    local bad=0 host transport status
    ip address add 192.0.2.1/32 dev lo && ip address add 198.51.100.1/32 dev lo || return 1
    start_daemon "$work/listening" --port 20112 --bind 0.0.0.0 --announce 198.51.100.1 --from 192.0.2.0/24 || return 1
    for host in 127.0.0.1 192.0.2.1; do
        for transport in t u; do
            is_answered $transport $host || { echo "$host -$transport: not answered"; bad=1; }
        done
    done
    is_answered t 198.51.100.1
    status=$?
    [ $status -eq 1 ] || { echo "198.51.100.1 -t: status $status"; bad=1; }
    ! is_answered u 198.51.100.1 2 || { echo "198.51.100.1 -u: answered"; bad=1; }
    is_answered u 192.0.2.1 || { echo "192.0.2.1 -u: not answered at the end"; bad=1; }
    kill "$daemon"
    wait "$daemon" 2> /dev/null
    ip address del 192.0.2.1/32 dev lo && ip address del 198.51.100.1/32 dev lo || bad=1
    return $bad
}

# FROM-1
run_callers_of_networks() {
    [ -n "$own_namespaces" ] || { echo "callers of other networks are not tried: that wants root, unshare and ip"; return; }
    callers_of_networks
    judge $? "callers of other networks"
}

run_serving() {
    run_without_descriptors
    run_connections_at_once
    run_unshown_client
    run_failing_waits
    run_full_queue_in_the_way
    run_local_socket
    run_growing_table
    run_port_is_not_shared
    run_callers_of_networks
}

checks+=(run_serving)
