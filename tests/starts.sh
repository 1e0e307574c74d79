# Sourced by run-rows.sh: starts of the built daemon, with what it says of them: its listeners, words that it takes and
# refuses, limits, what is in its way, and the help of rpcbind.

# SETTING-1
# The daemon says where it listens, and ends after its turns.
run_three_turns() {
    echo 'rpcbind: listening on 127.0.0.1 port 20112' > "$work/wanted"
    run /dev/null serve --port 20112 --turns 3
    as_wanted "$work/wanted" /dev/null 0
    judge $? "three turns of the daemon"
}

# LOCAL-4 SETTING-1 OPTION-3 OPTION-4 START-1
# It says so of each address, of [::1] and of the local socket, whose file has the mode that is given. The second start
# finds the file of the first, which nobody listens on any more.
run_all_listeners() {
    local local_socket=$work/local.sock bad=0
    printf 'rpcbind: listening on %s\n' '127.0.0.1 port 20112' '127.0.0.2 port 20112' '::1 port 20112' "$local_socket" \
        > "$work/wanted"
    for _ in 1 2; do
        run /dev/null serve --port 20112 --bind 127.0.0.1 --bind 127.0.0.2 --loopback6 --local "$local_socket" \
            --local-mode 620 --turns 1
        as_wanted "$work/wanted" /dev/null 0 || bad=1
    done
    [ "$(stat -c %a "$local_socket")" = 620 ] || bad=1
    judge $bad "a daemon on all listeners, twice"
}

# START-2
# If the limit of open files is less than the connections need, there are fewer of them, and that is said. It is the soft one.
run_few_descriptors() {
    local needed places
    echo 'rpcbind: listening on 127.0.0.1 port 20112' > "$work/wanted"
    (ulimit -S -n 24; run /dev/null serve --port 20112 --turns 1 && exit "$got")
    got=$?
    read -r needed places < <(sed -nE 's/^rpcbind: the limit of open files is 24, --conns 64 needs ([0-9]+): ([0-9]+) connections at a time$/\1 \2/p' "$work/stderr")
    [ "$got" -eq 0 ] && same "$work/wanted" "$work/stdout" "standard output" \
        && [ "$(wc -l < "$work/stderr")" -eq 1 ] && [ $((64 - ${places:-0})) -eq $((${needed:-0} - 24)) ]
    judge $? "a daemon with few descriptors"
}

# LOCAL-1 FAULT-3
# A file that is no socket stays.
run_file_in_the_way() {
    local file=$work/in-the-way
    echo kept > "$file"
    printf 'rpcbind: %s\n' 'socket failed' "bind $file: the file is no socket, and stays" > "$work/wanted"
    run /dev/null serve --port 20112 --turns 1 --local "$file"
    as_wanted /dev/null "$work/wanted" 3 && [ "$(cat "$file")" = kept ]
    judge $? "a file in the way of the local socket"
}

# FAULT-2
# Which limit is out of its range, and what is expected.
run_daemon_with_bad_limits() {
    local option value wanted
    while read -r option value wanted; do
        printf 'rpcbind: %s\n' "--$option $value: $wanted is wanted" 'bad limits' > "$work/wanted"
        run /dev/null serve --port 20112 --turns 1 "--$option" "$value"
        as_wanted /dev/null "$work/wanted" 3
        judge $? "a daemon with --$option $value"
    done << 'END'
conns 0 1 to 256
rows 4097 8 to 4096
forwards 65 0 to 64
END
}

# FAULT-3
# 192.0.2.1 is no address of this machine.
run_daemon_elsewhere() {
    printf 'rpcbind: %s\n' 'socket failed' 'bind TCP 192.0.2.1:20112: Cannot assign requested address (os error 99)' \
        > "$work/wanted"
    run /dev/null serve --bind 192.0.2.1 --port 20112 --turns 1
    as_wanted /dev/null "$work/wanted" 3
    judge $? "a daemon at an address that is not there"
}

# Runs the daemon in a network of its own, with two interfaces, for a turn.
run_in_a_network() {
    cat > "$work/in-a-network" << 'END'
ip link set lo up && ip link add here type veth peer name there && ip link set here up && ip link set there up
ip address add 192.0.2.3/24 dev here && ip address add 192.0.2.1/24 dev here && ip address add 2001:db8::1/64 dev here nodad
ip address add 198.51.100.1/24 dev there
for last in $1; do ip address add "192.0.2.$last/24" dev here; done
shift
exec "$@"
END
    local more=$1
    shift
    unshare --net bash "$work/in-a-network" "$more" "$program" serve --port 20112 --turns 1 "$@" \
        < /dev/null > "$work/stdout" 2> "$work/stderr"
    got=$?
}

# BIND-5 BIND-7 FOLLOW-2
# The addresses of an interface or of all are listened on, the loopback's last, at most 16 in all. A name may be of no interface
# yet. With sockets that are handed over no other addresses are bound.
run_interfaces() {
    local bind hosts line
    if [ "$(id -u)" -ne 0 ] || ! type ip > /dev/null 2>&1 || ! unshare --net true 2> /dev/null; then
        echo "interfaces are not tried: that wants root, unshare and ip"
        return
    fi
    while IFS=';' read -r bind hosts line; do
        # shellcheck disable=SC2086
        printf 'rpcbind: listening on %s port 20112\n' $hosts 127.0.0.1 ::1 > "$work/wanted"
        printf '%s' "${line:+$line$'\n'}" > "$work/wanted-stderr"
        # shellcheck disable=SC2086
        run_in_a_network '' $bind
        as_wanted "$work/wanted" "$work/wanted-stderr" 0
        judge $? "addresses of $bind"
    done << 'END'
--bind all;192.0.2.1 192.0.2.3 198.51.100.1 2001:db8::1
--bind=here;192.0.2.1 192.0.2.3 2001:db8::1
--bind there --bind 192.0.2.3;192.0.2.3 198.51.100.1
--bind=there --bind=192.0.2.1;192.0.2.1 198.51.100.1
--bind here --bind there --loopback6;192.0.2.1 192.0.2.3 2001:db8::1 198.51.100.1
--bind lo;
--bind localhost;;rpcbind: --bind localhost adds no address now; it is tried again
END
    # shellcheck disable=SC2046
    printf 'rpcbind: listening on %s port 20112\n' 192.0.2.1 192.0.2.3 $(printf '192.0.2.%s ' $(seq 10 21)) 127.0.0.1 ::1 \
        > "$work/wanted"
    echo 'rpcbind: more than 16 addresses: 192.0.2.22 and those behind it are not listened on' > "$work/wanted-stderr"
    run_in_a_network "$(seq -s ' ' 10 29)" --bind all
    as_wanted "$work/wanted" "$work/wanted-stderr" 0
    judge $? "more addresses than are listened on"
}

# START-1
# Clients from elsewhere can make nothing of 0.0.0.0.
run_daemon_without_announce() {
    echo 'rpcbind: listening on 0.0.0.0 port 20112' > "$work/wanted"
    echo 'rpcbind: no --announce: clients over UDP will be told 0.0.0.0' > "$work/wanted-stderr"
    run /dev/null serve --bind 0.0.0.0 --port 20112 --turns 1
    as_wanted "$work/wanted" "$work/wanted-stderr" 0
    judge $? "a daemon at 0.0.0.0 that announces nothing else"
    echo 'rpcbind: listening on :: port 20112' > "$work/wanted"
    printf 'rpcbind: no --announce: clients over UDP will be told %s\n' 0.0.0.0 :: > "$work/wanted-stderr"
    run /dev/null serve --bind :: --port 20112 --turns 1
    as_wanted "$work/wanted" "$work/wanted-stderr" 0
    judge $? "a daemon at :: that announces nothing else"
}

# WORD-1 KEEP-8 KEEP-9 OPTION-2 OPTION-3 OPTION-5 OPTION-6 OPTION-7 OPTION-8 OPTION-9
# Words of `serve` that can't be read: the value, the option, and what is expected.
run_bad_words_of_serve() {
    local option value wanted words
    while IFS=: read -r option value wanted; do
        echo "error: invalid value '$value' for '--$option': $wanted is wanted" > "$work/wanted"
        run /dev/null serve "--$option" "$value"
        as_wanted /dev/null "$work/wanted" 2
        judge $? "--$option '$value' can't be read"
    done << 'END'
local-mode:8:a mode from 0 to 777 in octal digits
local-mode:1000:a mode from 0 to 777 in octal digits
local-mode:+6:a mode from 0 to 777 in octal digits
udp-lists:any:all or local
forward-for:any:all or local
udp-rate:0:a number from 1 to 1000, or two as 20,5,
udp-rate:1001:a number from 1 to 1000, or two as 20,5,
udp-rate:20,:a number from 1 to 1000, or two as 20,5,
udp-rate:20,5,1:a number from 1 to 1000, or two as 20,5,
reserve:100003:a reservation as 100003=0 or 100003-100005=0
reserve:100003=:a reservation as 100003=0 or 100003-100005=0
reserve:100003-100002=0:a reservation as 100003=0 or 100003-100005=0
reserve:100003-4294967296=0:a reservation as 100003=0 or 100003-100005=0
record-limit:999:a number from 1000 to 16777216
record-limit:16777217:a number from 1000 to 16777216
keep::the path of a file
log:none:changes or all
log:change:changes or all
bind:192.0.2.300:an address as 192.0.2.1 or 2001:db8::1
from:localhost:a network as 192.0.2.0/24, with no bit set behind its length,
from:192.0.2.0/33:a network as 192.0.2.0/24, with no bit set behind its length,
from:192.0.2.1/24:a network as 192.0.2.0/24, with no bit set behind its length,
from:192.0.2.0/255.255.255.0:a network as 192.0.2.0/24, with no bit set behind its length,
END
    echo "error: invalid value 'fe80::1%lo' for '--bind': an address as 192.0.2.1 or 2001:db8::1 is wanted" > "$work/wanted"
    run /dev/null serve --bind 127.0.0.1 --bind fe80::1%lo
    as_wanted /dev/null "$work/wanted" 2
    judge $? "--bind 'fe80::1%lo' can't be read"
    echo "error: invalid value '2001:db8::1/32' for '--from': a network as 192.0.2.0/24, with no bit set behind its length, is wanted" > "$work/wanted"
    run /dev/null serve --from 2001:db8::/32 --from 2001:db8::1/32
    as_wanted /dev/null "$work/wanted" 2
    judge $? "--from '2001:db8::1/32' can't be read"
    echo "error: invalid value '192.0.2.17' for '--from': no more than 16 networks is wanted" > "$work/wanted"
    mapfile -t words < <(printf -- '--from=192.0.2.%s\n' $(seq 17))
    run /dev/null serve "${words[@]}"
    as_wanted /dev/null "$work/wanted" 2
    judge $? "--from is given 17 times"
    cat > "$work/wanted" << 'END'
error: the following required arguments were not provided:
  --keep <FILE>

Usage: rpcbind serve --keep <FILE> --keep-check

For more information, try '--help'.
END
    run /dev/null serve --keep-check
    as_wanted /dev/null "$work/wanted" 2
    judge $? "--keep-check is given without --keep"
    echo "error: invalid value '$work/both' for '--keep': another file than that of --record is wanted" > "$work/wanted"
    echo kept > "$work/both"
    run /dev/null serve --keep "$work/both" --record "$work/both"
    as_wanted /dev/null "$work/wanted" 2 && [ "$(cat "$work/both")" = kept ]
    judge $? "the rows are to be kept in the file of the record"
}

# EXIT-2
# A user of --reserve may be named as in /etc/passwd, in each form of the option.
run_names_of_users() {
    echo 'rpcbind: listening on 127.0.0.1 port 20112' > "$work/wanted"
    run /dev/null serve --port 20112 --turns 1 --reserve 100003=root --reserve=100005-100007=root --reserve 100021=4294967294
    as_wanted "$work/wanted" /dev/null 0
    judge $? "users by their names, and one by its number"
    echo 'rpcbind: --reserve: /etc/passwd has no user nobody-of-this-name' > "$work/wanted"
    run /dev/null serve --port 20112 --turns 1 --reserve=100003=nobody-of-this-name
    as_wanted /dev/null "$work/wanted" 2
    judge $? "a name that no user has"
}

# OPTION-5
# Sixteen networks, of both families, with a host alone among them.
run_daemon_of_networks() {
    local words
    echo 'rpcbind: listening on 127.0.0.1 port 20112' > "$work/wanted"
    mapfile -t words < <(printf -- '--from=192.0.2.%s\n' $(seq 13))
    run /dev/null serve --port 20112 --turns 1 --from 0.0.0.0/0 --from 198.51.100.0/24 --from 2001:DB8::/32 "${words[@]}"
    as_wanted "$work/wanted" /dev/null 0
    judge $? "a daemon that serves sixteen networks"
}

# DEBIAN-1 DEBIAN-2 EXIT-2
# Options of Debian's rpcbind(8) without a command: -h binds, with 127.0.0.1 and ::1 beside it, -w keeps rows, -r forwards, -l and -d
# tell of all and -f is as it is. What has no like here ends the program and is named. Port 111 may be another's here, so each
# start ends by a word that can't be read.
run_options_of_debian() {
    local words taken left
    while IFS='|' read -r words taken; do
        {
            echo "rpcbind: taken as: serve $taken"
            echo "error: invalid value '192.0.2.300' for '--bind': an address as 192.0.2.1 or 2001:db8::1 is wanted"
        } | sed "s/~/$(grep -q '^0\{31\}1 ' /proc/net/if_inet6 2> /dev/null && echo ' --loopback6')/" > "$work/wanted"
        run /dev/null $words
        as_wanted /dev/null "$work/wanted" 2
        judge $? "rpcbind $words"
    done << 'END'
-h 192.0.2.300|--bind 192.0.2.300 --bind 127.0.0.1~
-fh192.0.2.300|--bind 192.0.2.300 --bind 127.0.0.1~
-h 192.0.2.300 -h 127.0.0.1 -h 192.0.2.300|--bind 192.0.2.300 --bind 127.0.0.1~
-h 192.0.2.300 -h 0.0.0.0|--bind 192.0.2.300 --bind 0.0.0.0~
-h :: -h 192.0.2.300|--bind :: --bind 192.0.2.300
-wf -h 192.0.2.300|--keep /run/rpcbind-proved/rows --bind 192.0.2.300 --bind 127.0.0.1~
-w -w -r -h 192.0.2.300|--keep /run/rpcbind-proved/rows --forwards 16 --forward-for all --bind 192.0.2.300 --bind 127.0.0.1~
-ld -h 192.0.2.300|--log all --bind 192.0.2.300 --bind 127.0.0.1~
END
    while IFS='|' read -r words left; do
        echo "rpcbind: $left" > "$work/wanted"
        run /dev/null $words
        as_wanted /dev/null "$work/wanted" 2
        judge $? "rpcbind $words"
    done << 'END'
-i|-i: other hosts never register here; --believe-claims comes nearest
-s -w|-s: the user is that of User= in the unit, or of the program that starts it
-aL|-a: nothing aborts here; -L: not known here
-w 127.0.0.1|127.0.0.1: not known here
-w --bind|--bind: not known here
-w -h|-h: a host is wanted
END
    echo "rpcbind: serve -h shows help: give a host as --bind HOST, or in --options='-h HOST'" > "$work/wanted"
    run /dev/null serve -h 127.0.0.1
    as_wanted /dev/null "$work/wanted" 2
    judge $? "rpcbind serve -h 127.0.0.1"
    run /dev/null -h
    [ "$got" -eq 0 ] && [ ! -s "$work/stderr" ] && grep -q Usage "$work/stdout"
    judge $? "rpcbind -h"
}

# DEBIAN-2 DEBIAN-3 DEBIAN-4
# The same in the text of --options: what is given beside it stays, and what has no like is named in a line.
run_text_of_options() {
    local text=$1 listens=$2 bad=0
    shift 2
    printf 'rpcbind: %s\n' "listening on $listens port 20112" > "$work/wanted"
    if [ $# -gt 0 ]; then printf 'rpcbind: --options: %s\n' "$@"; fi > "$work/wanted-stderr"
    run /dev/null serve --port 20112 --turns 1 --log changes --keep "$work/rows" "--options=$text" --options ''
    as_wanted "$work/wanted" "$work/wanted-stderr" 0 || bad=1
    run /dev/null serve --port 20112 --options "$text" --options= --turns 1 --log changes --keep "$work/rows"
    as_wanted "$work/wanted" "$work/wanted-stderr" 0 || bad=1
    judge $bad "--options='$text'"
}

run_texts_of_options() {
    run_text_of_options '' 127.0.0.1
    run_text_of_options ' -w  -f -ld' 127.0.0.1
    run_text_of_options '-r' 127.0.0.1 'taken as: --forwards 16 --forward-for all'
    run_text_of_options '-w -i -s extra' 127.0.0.1 \
        'not taken: -i: other hosts never register here; --believe-claims comes nearest; -s: the user is that of User= in the unit, or of the program that starts it; extra: not known here'
    run_text_of_options '-w -h' 127.0.0.1 'not taken: -h: a host is wanted'
    LISTEN_FDS=1 run_text_of_options '-h 127.0.0.2' 127.0.0.1 'not taken: -h: the socket unit says where it listens'
    run_hosts_of_options
}

# DEBIAN-1 DEBIAN-3
# A host of -h is listened on, with 127.0.0.1 and ::1 beside it, and none of them twice.
run_hosts_of_options() {
    local six='' words
    ! grep -q '^0\{31\}1 ' /proc/net/if_inet6 2> /dev/null || six=yes
    printf 'rpcbind: listening on %s port 20112\n' 127.0.0.2 127.0.0.1 ${six:+::1} > "$work/wanted"
    echo "rpcbind: --options: taken as: --bind 127.0.0.2 --bind 127.0.0.1${six:+ --loopback6}" > "$work/wanted-stderr"
    run /dev/null serve --port 20112 --turns 1 --options=-h127.0.0.2
    as_wanted "$work/wanted" "$work/wanted-stderr" 0
    judge $? "a host of --options"
    for words in '--bind 127.0.0.2 --bind=127.0.0.1' '--bind=127.0.0.2 --bind 127.0.0.1'; do
        echo "rpcbind: --options: taken as: --loopback6" > "$work/wanted-stderr"
        [ -n "$six" ] || : > "$work/wanted-stderr"
        run /dev/null serve --port 20112 --turns 1 $words '--options=-h 127.0.0.2'
        as_wanted "$work/wanted" "$work/wanted-stderr" 0
        judge $? "a host of --options that is given, by $words"
    done
}

# HOSTS-1
# Lines of tcpd's files for rpcbind, portmap or ALL are named at the start: as root alone, in a file system of its own.
run_hosts_files() {
    local bad=0
    [ "$(id -u)" -eq 0 ] && unshare -m true 2> /dev/null || { echo "not tried: files of tcpd, without a file system of its own"; return; }
    mkdir -p "$work/etc"
    printf '%s\n' '# rpcbind: ALL' 'sshd, nfsd : ALL' > "$work/etc/hosts.allow"
    printf '%s\n' 'sshd: ALL' 'mountd ALL: ALL EXCEPT 192.0.2.1' > "$work/etc/hosts.deny"
    echo "rpcbind: /etc/hosts.deny has a line for rpcbind, which is not heeded: --from says whom it serves" > "$work/wanted-stderr"
    echo 'rpcbind: listening on 127.0.0.1 port 20112' > "$work/wanted"
    unshare -m sh -c 'mount -t tmpfs tmpfs /etc && cp "$1"/etc/* /etc && exec "$2" serve --port 20112 --turns 1' \
        sh "$work" "$program" > "$work/stdout" 2> "$work/stderr"
    got=$?
    as_wanted "$work/wanted" "$work/wanted-stderr" 0 || bad=1
    judge $bad "lines of tcpd's files"
}

# LEVEL-1 LEVEL-2
# Each line of standard error has its priority in front if JOURNAL_STREAM names its device and inode, and else none.
run_levels() {
    local bad=0 plain=$work/wanted marked=$work/wanted-marked words
    printf '%s\n' '<5>rpcbind: --options: taken as: --forwards 16 --forward-for all' '<4>rpcbind: --options: not taken: -x: not known here' \
        '<4>rpcbind: no --announce: clients over UDP will be told 0.0.0.0' '<3>rpcbind: socket failed' \
        '<3>rpcbind: bind TCP 192.0.2.1:20112: Cannot assign requested address (os error 99)' > "$marked"
    sed 's/^<.>//' "$marked" > "$plain"
    for words in "--bind 0.0.0.0" "--bind 192.0.2.1"; do
        : > "$work/stderr"
        JOURNAL_STREAM=$(stat -c %d:%i "$work/stderr") "$program" serve --port 20112 --turns 1 $words '--options=-r -x' 2>> "$work/stderr" > /dev/null
        cat "$work/stderr" >> "$work/levels"
        : > "$work/stderr"
        JOURNAL_STREAM=$(stat -c %d:1%i "$work/stderr") "$program" serve --port 20112 --turns 1 $words '--options=-r -x' 2>> "$work/stderr" > /dev/null
        cat "$work/stderr" >> "$work/no-levels"
    done
    sed -i '4,5d' "$work/levels" "$work/no-levels" # the second start takes its options as the first
    same "$marked" "$work/levels" "lines in the journal" || bad=1
    same "$plain" "$work/no-levels" "lines elsewhere" || bad=1
    : > "$work/stderr"
    JOURNAL_STREAM=$(stat -c %d:%i "$work/stderr") "$program" serve --port 0 2>> "$work/stderr"
    echo "<3>error: invalid value '0' for '--port': a port from 1 to 65535 is wanted" > "$work/wanted"
    same "$work/wanted" "$work/stderr" "a word that can't be read" || bad=1
    printf '%s\n' 'rpcbind: listening on 127.0.0.1 port 20112' \
        '<6>rpcbind: SET 200001 1 tcp 127.0.0.1.8.1 of unknown by 127.0.0.1:20113: accepted' > "$work/wanted"
    : > "$work/log"
    JOURNAL_STREAM=$(stat -c %d:%i "$work/log") start_daemon "$work/log" --port 20112 --log changes || bad=1
    send_calls <<< '4 set 200001 1 tcp 127.0.0.1.8.1' && await_lines "$work/log" 2 || bad=1
    kill "$daemon"
    wait "$daemon" 2> /dev/null
    same "$work/wanted" "$work/log" "a line of the log" || bad=1
    judge $bad "levels of lines"
}

# Help is printed with status 0, and names each of these options.
run_help_of() {
    local command=$1 option bad=0
    shift
    run /dev/null $command --help
    [ "$got" -eq 0 ] && [ ! -s "$work/stderr" ] || bad=1
    for option in "$@"; do
        grep -q -e "--$option\b" "$work/stdout" || { echo "no --$option in the help of '$command'"; bad=1; }
    done
    judge $bad "the help of '$command'"
}

# The version of the program, which each command says with its own name.
run_version_of() {
    local command=$1 name=$2
    echo "$name $version" > "$work/wanted"
    run /dev/null $command --version
    as_wanted "$work/wanted" /dev/null 0
    judge $? "the version by '$command'"
}

run_helps() {
    run_help_of '' help version
    run_help_of serve bind from announce local local-mode loopback6 port conns rows forwards udp-lists forward-for \
        reserve udp-rate turns record record-limit keep keep-check log options help version
    run_help_of replay announce local port conns rows forwards udp-lists forward-for reserve check steps xid now help version
    run_version_of '' rpcbind
    run_version_of serve rpcbind-serve
    run_version_of replay rpcbind-replay
}

run_starts() {
    run_three_turns
    run_all_listeners
    run_few_descriptors
    run_file_in_the_way
    run_daemon_with_bad_limits
    run_daemon_elsewhere
    run_interfaces
    run_daemon_without_announce
    run_bad_words_of_serve
    run_daemon_of_networks
    run_names_of_users
    run_options_of_debian
    run_texts_of_options
    run_hosts_files
    run_levels
    run_helps
}

checks+=(run_starts)
