# Sourced by run-rows.sh: what rpcinfo's forms ask over sockets, of the built daemon, of tests/programs.py and where nobody
# listens. What it makes of replies on standard input is in rows.sh.

# UNANSWERED-2 UNANSWERED-3 STATUS-1
# Nobody listens on port 20199.
run_rpcinfo_of_nobody() {
    echo 'rpcinfo: no connection' > "$work/wanted"
    run_rpcinfo /dev/null --port 20199 -p
    as_wanted /dev/null "$work/wanted" 1
    judge $? "rpcinfo where nobody listens"
    run_rpcinfo /dev/null -n 20199 -u 127.0.0.1 100000 4
    as_wanted /dev/null "$work/wanted" 1
    judge $? "rpcinfo by a datagram where nobody listens"
    echo 'rpcinfo: nobody listens on the socket' > "$work/wanted"
    run_rpcinfo /dev/null --local "$work/nobody" --port 20199 -p
    as_wanted /dev/null "$work/wanted" 1
    judge $? "rpcinfo where no socket is"
}

# WAIT-8
# A portmapper that takes a call and says nothing is waited for 25 seconds over TCP, and for 5 over UDP: beside all others.
run_rpcinfo_of_silence() {
    local silent begun waited
    python3 -c '
import socket, sys, time
with socket.create_server(("127.0.0.1", 0)) as silent, socket.socket(socket.AF_INET, socket.SOCK_DGRAM) as deaf:
    deaf.bind(silent.getsockname())
    print(silent.getsockname()[1], flush=True)
    time.sleep(120)' > "$work/port" &
    silent=$!
    for _ in $(seq 300); do [ ! -s "$work/port" ] || break; sleep 0.1; done
    echo 'rpcinfo: no reply' > "$work/wanted"
    begun=$SECONDS
    run_rpcinfo /dev/null --port "$(cat "$work/port")" -p 127.0.0.1
    waited=$((SECONDS - begun))
    as_wanted /dev/null "$work/wanted" 1 && [ "$waited" -ge 24 ] && [ "$waited" -lt 55 ]
    judge $? "rpcinfo of a silent portmapper over TCP, after $waited seconds"
    begun=$SECONDS
    run_rpcinfo /dev/null -n "$(cat "$work/port")" -u 127.0.0.1 200001 1
    waited=$((SECONDS - begun))
    as_wanted /dev/null "$work/wanted" 1 && [ "$waited" -ge 4 ] && [ "$waited" -lt 24 ]
    judge $? "rpcinfo of a silent program over UDP, after $waited seconds"
    kill "$silent"
    wait "$silent" 2> /dev/null
}

# WAIT-8
# A reply over TCP of which a byte comes every three seconds is waited for no longer than a minute. It is that of a list
# without rows.
run_rpcinfo_of_slow_reply() {
    local slow begun waited
    python3 -c '
import socket, struct, time
reply = struct.pack(">8I", 0x8000001c, 1, 1, 0, 0, 0, 0, 0)
with socket.create_server(("127.0.0.1", 0)) as listener:
    print(listener.getsockname()[1], flush=True)
    near, _ = listener.accept()
    for byte in reply:
        time.sleep(3)
        near.send(bytes([byte]))' > "$work/port" 2> /dev/null &
    slow=$!
    for _ in $(seq 300); do [ ! -s "$work/port" ] || break; sleep 0.1; done
    echo 'rpcinfo: read failed' > "$work/wanted"
    begun=$SECONDS
    run_rpcinfo /dev/null --port "$(cat "$work/port")" -p 127.0.0.1
    waited=$((SECONDS - begun))
    as_wanted /dev/null "$work/wanted" 1 && [ "$waited" -ge 58 ] && [ "$waited" -lt 90 ]
    judge $? "rpcinfo of a slow reply over TCP, after $waited seconds"
    kill "$slow" 2> /dev/null
    wait "$slow" 2> /dev/null
}

# SHOW-10
# A row is printed as it comes: the portmapper gives the second one of its reply once the first one stands in the output.
run_rpcinfo_of_rows_as_they_come() {
    local slow asked
    python3 -c '
import os, socket, struct, sys, time

def text(content):
    return struct.pack(">I", len(content)) + content + bytes(-len(content) % 4)

def row(program):
    return struct.pack(">3I", 1, program, 1) + text(b"tcp") + text(b"127.0.0.1.8.1") + text(b"superuser")

with socket.create_server(("127.0.0.1", 0)) as server:
    print(server.getsockname()[1], flush=True)
    with server.accept()[0] as client:
        head = client.recv(4096)[4:8] + struct.pack(">5I", 1, 0, 0, 0, 0)
        client.sendall(struct.pack(">I", len(head + row(200001))) + head + row(200001))
        while not os.path.exists(sys.argv[1]):
            time.sleep(0.1)
        client.sendall(struct.pack(">I", 1 << 31 | len(row(200002)) + 4) + row(200002) + bytes(4))' "$work/shown" > "$work/port" &
    slow=$!
    for _ in $(seq 300); do [ ! -s "$work/port" ] || break; sleep 0.1; done
    printf '%s\n' '200001 1 tcp 127.0.0.1.8.1 superuser' > "$work/wanted-first"
    printf '%s\n' '20000'{1,2}' 1 tcp 127.0.0.1.8.1 superuser' > "$work/wanted"
    "$rpcinfo" --port "$(cat "$work/port")" 127.0.0.1 > "$work/stdout" 2> "$work/stderr" &
    asked=$!
    for _ in $(seq 200); do ! cmp -s "$work/wanted-first" "$work/stdout" || break; sleep 0.1; done
    same "$work/wanted-first" "$work/stdout" "what stands before the second row came"
    judge $? "rpcinfo of a slow reply: its first row"
    touch "$work/shown"
    wait "$asked"
    got=$?
    as_wanted "$work/wanted" /dev/null 0
    judge $? "rpcinfo of a slow reply: all of it"
    kill "$slow" 2> /dev/null
    wait "$slow" 2> /dev/null
}

# ADDRESS-1
# A host is there, and has no address of the netid's family.
run_rpcinfo_of_other_family() {
    echo 'rpcinfo: the host has no IPv6 address' > "$work/wanted"
    run_rpcinfo /dev/null --port 20199 -T tcp6 127.0.0.1 100000
    as_wanted /dev/null "$work/wanted" 1
    judge $? "rpcinfo: a host of the other family"
}

# The words of one form, asked of the daemon on port 20112, and the lines that it must print.
ask_form() {
    printf '%s\n' "${@:2}" > "$work/wanted"
    run_rpcinfo /dev/null --port 20112 $1
    as_wanted "$work/wanted" /dev/null 0
    judge $? "rpcinfo over sockets: $1"
}

# WORDS-11
# The forms that ask over sockets, of the daemon on 127.0.0.1, [::1] and a local socket. Their answers are the daemon's own
# rows, and that procedure 0 of its versions answers; 20112 is 78 times 256, and 144.
run_rpcinfo_over_sockets() {
    local local_socket=$work/asked.sock each two three four rows daemon
    each=('program 100000 version '{2,3,4}' ready')
    two=${each[0]} three=${each[1]} four=${each[2]}
    start_daemon "$work/listening" --port 20112 --loopback6 --local "$local_socket"
    judge $? "a daemon that rpcinfo asks"
    for words in '-t 127.0.0.1' '-u 127.0.0.1' '-T tcp 127.0.0.1' '-T udp 127.0.0.1' '-n 20112 -t 127.0.0.1' \
        '-a 127.0.0.1.78.144 -T tcp' '-a 127.0.0.1.78.144 -T udp' '-a ::1.78.144 -T tcp6' '-t ::1'; do
        ask_form "$words 100000" "${each[@]}"
        ask_form "$words 100000 4" "$four"
    done
    echo 'portmapper 100000 sunrpc' > "$work/programs"
    ask_form "--programs $work/programs -t 127.0.0.1 portmapper 2" "$two"
    ask_form "--programs $work/programs -T udp 127.0.0.1 sunrpc 3" "$three"
    # Whoever opened this pipe for reading would wait for a writer.
    mkfifo "$work/unread"
    ask_form "--programs $work/unread -t 127.0.0.1 100000 2" "$two"
    ask_form "--programs $work/unread --json -p 127.0.0.1" '{"program":100000,"version":'{4,3,2}',"protocol":6,"port":20112}' \
        '{"program":100000,"version":'{4,3,2}',"protocol":17,"port":20112}'
    ask_form "127.0.0.1" '100000 '{4,3}' tcp6 ::.78.144 superuser' '100000 '{4,3}' udp6 ::.78.144 superuser' \
        '100000 '{4,3,2}' tcp 0.0.0.0.78.144 superuser' '100000 '{4,3,2}' udp 0.0.0.0.78.144 superuser' \
        '100000 '{4,3}" local $local_socket superuser"
    rows=('100000 '{4,3}' tcp6' '100000 '{4,3}' udp6' '100000 '{4,3,2}' tcp' '100000 '{4,3,2}' udp' '100000 '{4,3}' local')
    ask_form "-s ::1" "${rows[@]}"
    ask_form "-s --local $local_socket" "${rows[@]}"
    echo 'rpcinfo: nobody listens on the socket' > "$work/wanted"
    run_rpcinfo /dev/null --port 20112 --local "$local_socket.misspelt" -s
    as_wanted /dev/null "$work/wanted" 1
    judge $? "rpcinfo over sockets: a path that is misspelt"
    ask_form "--json -p 127.0.0.1" '{"program":100000,"version":'{4,3,2}',"protocol":6,"port":20112}' \
        '{"program":100000,"version":'{4,3,2}',"protocol":17,"port":20112}'
    ask_form "--programs $work/programs --summary 127.0.0.1" \
        '   program version(s) netid(s)                         service     owner' \
        '    100000  2,3,4     local,udp,tcp,udp6,tcp6          portmapper  superuser'
    ask_form "-l 127.0.0.1 100000 4" "tcp6 ::1.78.144 3 inet6 tcp" "udp6 ::1.78.144 1 inet6 udp" \
        "tcp 127.0.0.1.78.144 3 inet tcp" "udp 127.0.0.1.78.144 1 inet udp" "local $local_socket 3 loopback -"
    echo "rpcinfo: there is no such row, or it is another user's" > "$work/wanted-stderr"
    echo 'not removed' > "$work/wanted"
    run_rpcinfo /dev/null --port 20112 -d -T tcp 200001 1
    as_wanted "$work/wanted" "$work/wanted-stderr" 1
    judge $? "rpcinfo over sockets: a row that is not there"
    kill "$daemon"
    wait "$daemon" 2> /dev/null
}

# The words of one form, asked of the programs at 127.0.0.2, and the file of lines that it must print, with the status and
# what is said.
ask_programs() {
    printf '%s' "$3" > "$work/wanted-stderr"
    run_rpcinfo /dev/null --port 20130 $1
    as_wanted "$work/wanted" "$work/wanted-stderr" "$2"
    judge $? "rpcinfo of programs: $1"
}

# WORDS-7 COURSE-2 COURSE-4 COURSE-5 COURSE-6 COURSE-8 COURSE-9 COURSE-11 COURSE-12 UNANSWERED-3
# Each version has its line, whatever those before it did. 127.0.0.2 is a host of its own: nobody listens there else, and
# an address of every host or of the loopback that is told there is called there.
run_rpcinfo_of_programs() {
    local programs
    : > "$work/listening" # what a daemon before wrote there is not to be taken for theirs
    tests/programs.py 127.0.0.2 20130 >> "$work/listening" 2>&1 &
    programs=$!
    await_listening "$work/listening" "$programs" || { judge 1 "programs that rpcinfo asks"; return; }
    printf 'program 200001 version %s\n' '1 ready' '2 not available' '3 ready' > "$work/wanted"
    ask_programs '-t 127.0.0.2 200001' 1 ''
    printf 'program 200003 version %s\n' '1 ready' '2 not available' '3 ready' > "$work/wanted"
    ask_programs '-t 127.0.0.2 200003' 1 ''
    : > "$work/wanted"
    ask_programs '-t 127.0.0.2 200001 2' 1 $'rpcinfo: no connection\n'
    ask_programs '-t 127.0.0.2 200003 2' 1 $'rpcinfo: no reply\n'
    ask_programs '-t 127.0.0.2 200002' 1 $'rpcinfo: too many versions\n'
    ask_programs '-u 127.0.0.2 200001 1' 1 $'rpcinfo: no connection\n'
    ask_programs '-n 20130 -u 127.0.0.2 200001 1' 1 $'rpcinfo: no connection\n'
    ask_programs '-T udp 127.0.0.2 200001 1' 1 $'rpcinfo: no connection\n'
    ask_programs '-t 127.0.0.2 200005 1' 1 \
        $'rpcinfo: program 200005 version 1 not available\nrpcinfo: the server refuses the caller: AUTH_TOOWEAK\n'
    echo 'program 200005 version 1 ready' > "$work/wanted"
    ask_programs '--uid 1000 -t 127.0.0.2 200005 1' 0 ''
    ask_programs '--uid 1000 -T tcp 127.0.0.2 200005 1' 0 ''
    echo 'program 200001 version 3 ready' > "$work/wanted"
    ask_programs '-T tcp 127.0.0.2 200001 3' 0 ''
    echo 'program 200001 version 2 ready' > "$work/wanted"
    ask_programs '-T tcp 127.0.0.2 200001 2' 0 ''
    kill "$programs"
    wait "$programs" 2> /dev/null
}

# WORDS-8 STATUS-2
# -d removes what is named, and no more, if the user is the row's owner: of one netid or of all, over TCP and on the
# local socket. --uid says who asks, which counts if claims are believed.
run_rpcinfo_removes() {
    local path=$work/removes.sock daemon
    start_daemon "$work/listening" --port 20112 --believe-claims --local "$path"
    asked_are << 'END'
udp 127.0.0.1 uid=1000 4 set 200001 1 tcp 127.0.0.1.8.1: 1
udp 127.0.0.1 uid=1000 4 set 200001 1 udp 127.0.0.1.8.1: 1
udp 127.0.0.1 uid=1000 4 set 200001 1 tcp6 ::1.8.1: 1
udp 127.0.0.1 uid=1000 4 set 200001 2 tcp 127.0.0.1.8.1: 1
udp 127.0.0.1 4 set 200002 1 tcp 127.0.0.1.8.1: 1
END
    judge $? "a daemon whose rows rpcinfo removes"
    echo 'not removed' > "$work/wanted"
    echo "rpcinfo: there is no such row, or it is another user's" > "$work/wanted-stderr"
    run_rpcinfo /dev/null --port 20112 -d 200001 1
    as_wanted "$work/wanted" "$work/wanted-stderr" 1
    judge $? "rpcinfo removes no row of another user"
    removes "--uid 1000 -d -T tcp 200001 1" '200001 1 udp' '200001 1 tcp6' '200001 2 tcp' '200002 1 tcp'
    removes "--uid 1000 --local $path -d -T tcp6 200001 1" '200001 1 udp' '200001 2 tcp' '200002 1 tcp'
    removes "-d 200002 1" '200001 1 udp' '200001 2 tcp'
    removes "--uid 1000 -d 200001 2" '200001 1 udp'
    kill "$daemon"
    wait "$daemon" 2> /dev/null
}

# The form removes a row, and these stay.
removes() {
    ask_form "$1" removed
    printf '%s\n' "${@:2}" > "$work/wanted"
    "$rpcinfo" --port 20112 -s | grep -v '^100000 ' > "$work/stdout"
    same "$work/wanted" "$work/stdout" "rows that stay"
    judge $? "rpcinfo over sockets: what stays after $1"
}

# Of a new daemon the statistics are those of this call: version 4 was asked for procedure 12 (RFC 1833 section 2.2.1).
run_rpcinfo_layouts() {
    local daemon zeros='0 0 0 0 0 0 0 0 0 0 0 0'
    start_daemon "$work/listening" --port 20112
    ask_form "-m 127.0.0.1" 'version 2' "info $zeros 0" 'set 0 unset 0' 'version 3' "info $zeros 0" 'set 0 unset 0' \
        'version 4' "info $zeros 1" 'set 0 unset 0'
    ask_form "-p" '   program   vers proto  port' '    100000      '{4,3,2}' tcp   20112' '    100000      '{4,3,2}' udp   20112'
    echo 'portmapper 100000' > "$work/programs"
    ask_form "--programs $work/programs --names -s" '100000 '{4,3,2}' tcp portmapper' '100000 '{4,3,2}' udp portmapper'
    ask_form "--programs $work/programs --names" '100000 '{4,3,2}' tcp 0.0.0.0.78.144 superuser portmapper' \
        '100000 '{4,3,2}' udp 0.0.0.0.78.144 superuser portmapper'
    ask_form "--json -l 127.0.0.1 100000 3" \
        '{"netid":"tcp","address":"127.0.0.1.78.144","semantics":3,"family":"inet","protocol":"tcp"}' \
        '{"netid":"udp","address":"127.0.0.1.78.144","semantics":1,"family":"inet","protocol":"udp"}'
    kill "$daemon"
    wait "$daemon" 2> /dev/null
}

# UNANSWERED-2 ADDRESS-3
# A user who may not open /run/rpcbind.sock, and names it, is answered at 127.0.0.1: as root alone, with a /run of its own.
run_rpcinfo_at_closed_socket() {
    local daemon bad=0
    [ "$(id -u)" -eq 0 ] && command -v setpriv > /dev/null && unshare -m true 2> /dev/null \
        || { echo "not tried: a socket that may not be opened, without root, setpriv or a file system of its own"; return; }
    start_daemon "$work/listening" --port 20112 || { judge 1 "a daemon beside a closed socket"; return; }
    printf '%s\n' '100000 '{4,3,2}' '{tcp,udp}' 0.0.0.0.78.144 superuser' | sort > "$work/wanted"
    unshare -m sh -c 'mount -t tmpfs -o mode=755 tmpfs /run && cp "$1" /run/rpcinfo && chmod 755 /run/rpcinfo &&
        python3 -c "import socket; socket.socket(socket.AF_UNIX).bind(\"/run/rpcbind.sock\")" && chmod 600 /run/rpcbind.sock &&
        exec setpriv --reuid=65534 --regid=65534 --clear-groups /run/rpcinfo --local /run/rpcbind.sock --port 20112' sh "$rpcinfo" > "$work/told" 2> "$work/stderr"
    got=$?
    sort "$work/told" > "$work/stdout"
    as_wanted "$work/wanted" /dev/null 0 || bad=1
    kill "$daemon"
    wait "$daemon" 2> /dev/null
    judge $bad "rpcinfo at a socket that may not be opened"
}

run_asking() {
    run_rpcinfo_of_nobody
    run_rpcinfo_at_closed_socket
    run_rpcinfo_of_other_family
    run_rpcinfo_of_programs
    run_rpcinfo_over_sockets
    run_rpcinfo_removes
    run_rpcinfo_layouts
}

checks+=(run_asking)
portless+=(run_rpcinfo_of_silence run_rpcinfo_of_slow_reply run_rpcinfo_of_rows_as_they_come)
waiting+=" run_rpcinfo_of_silence run_rpcinfo_of_slow_reply run_rpcinfo_of_rows_as_they_come"
