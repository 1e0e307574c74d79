#!/usr/bin/env bash
# Runs real clients and services against the built daemon, in a network, mount and process namespace of its own: a loopback
# alone, an empty /run, and nothing of the machine is touched. First with /etc/netconfig as it is, then so at every address,
# then with one of IPv4 alone. Needs root, `unshare` and `ip`. What is not installed is skipped, and said so. The word, if there is one, is the
# path of another built program. With RECORD=1 in the environment the daemon records its events, and its record is checked
# at its end. The last line is 'N passed, N failed, N skipped'; the status is 1 if one failed.
#
# `rpcinfo` is that of Debian's package rpcbind, and what it shows of an empty daemon is what it shows of that package's; a
# program of tests/peers is built with cc and libtirpc; services are those of nfs-common, nfs-kernel-server, rstatd, rusersd,
# rwalld, quota and nfs-ganesha-vfs, clients those of rusers, libnfs-utils and nfs-common.
set -u
here=$(cd "$(dirname "$0")/.." && pwd) || exit 1
cd "$here" || exit 1

. tests/daemon.sh

if [ "${1:-}" != --inside ]; then
    program=${1:-$PWD/crates/rpcbind/out/rpcbind}
    [ -x "$program" ] || { echo "no program $program: run 'make' first"; exit 1; }
    for tool in unshare ip mount; do
        command -v "$tool" > /dev/null || { echo "skipped: there is no $tool"; exit 0; }
    done
    [ "$(id -u)" -eq 0 ] || { echo "skipped: a namespace of its own wants root"; exit 0; }
    exec unshare --net --mount --propagation private --pid --fork --kill-child --mount-proc \
        "$here/tests/run-peers.sh" --inside "$program"
fi

program=$2
work=$(mktemp -d) || exit 1
daemon=
passed=0
failed=0
skipped=0

# The daemon ends by its own number; what else runs in here ends with the namespace.
finish() {
    [ -z "$daemon" ] || kill "$daemon" 2> /dev/null
    rm -rf "$work"
}
trap finish EXIT

skip() {
    skipped=$((skipped + 1))
    echo "skipped: $1"
}

# Runs a client, shows what it wrote, and wants status 0 and a line that has these words in it, in this order.
wants() {
    local name=$1 words=$2
    shift 2
    echo "\$ $*"
    timeout 30 "$@" > "$work/written" 2>&1 < /dev/null
    local status=$?
    sed 's/^/    /' "$work/written"
    [ "$status" -eq 0 ] && tr -s ' \t' ' ' < "$work/written" | grep -q -e "$words"
    judge $? "$name (status $status, wanted '$words')"
}

# A loopback, and folders of the services' own.
prepare() {
    mount -t tmpfs tmpfs /run || exit 1
    mkdir -p /run/rpc_pipefs /run/ganesha /run/sendsigs.omit.d
    ip link set lo up || exit 1
    if [ -d /var/lib/nfs ]; then
        mount -t tmpfs tmpfs /var/lib/nfs || exit 1
        mkdir -p /var/lib/nfs/sm /var/lib/nfs/sm.bak /var/lib/nfs/ganesha
        touch /var/lib/nfs/etab /var/lib/nfs/rmtab /var/lib/nfs/state
        chown -R statd /var/lib/nfs/sm /var/lib/nfs/sm.bak /var/lib/nfs/state 2> /dev/null
    fi
    # Debian's, and not one that was installed before it on the PATH.
    rpcinfo=$(dpkg -L rpcbind 2> /dev/null | grep '/rpcinfo$' | head -n 1)
    dpkg-query -W rpcbind libtirpc3 libtirpc3t64 nfs-common nfs-ganesha libnfs-utils 2> /dev/null
    if [ -e /etc/netconfig ]; then
        printf '%s\n' 'udp tpi_clts v inet udp - -' 'tcp tpi_cots_ord v inet tcp - -' > "$work/netconfig"
    fi
}

run_rpcinfo() {
    [ -x "$rpcinfo" ] || { skip "rpcinfo is not installed (package rpcbind)"; return; }
    wants "rpcinfo" '100000 4 tcp 0.0.0.0.0.111 portmapper superuser' "$rpcinfo"
    wants "rpcinfo -p without a host" '100000 4 tcp 111 ' "$rpcinfo" -p
    wants "rpcinfo -s without a host" '100000 2,3,4 .*superuser' "$rpcinfo" -s
    wants "rpcinfo -m" 'RPCBIND (version 4) statistics' "$rpcinfo" -m
    wants "rpcinfo -p" '100000 4 tcp 111 ' "$rpcinfo" -p 127.0.0.1
    wants "rpcinfo -s" '100000 2,3,4 .*superuser' "$rpcinfo" -s 127.0.0.1
    wants "rpcinfo -T udp" 'program 100000 version 4 ready' "$rpcinfo" -T udp 127.0.0.1 100000
    wants "rpcinfo -T tcp" 'program 100000 version 4 ready' "$rpcinfo" -T tcp 127.0.0.1 100000
    wants "rpcinfo -t" 'program 100000 version 2 ready' "$rpcinfo" -t 127.0.0.1 100000 2
    wants "rpcinfo -u" 'program 100000 version 2 ready' "$rpcinfo" -u 127.0.0.1 100000 2
    has_netid udp6 || return
    wants "rpcinfo -T udp6" 'program 100000 version 4 ready' "$rpcinfo" -T udp6 ::1 100000
    wants "rpcinfo -T tcp6" 'program 100000 version 4 ready' "$rpcinfo" -T tcp6 ::1 100000
}

# The lists of a daemon that has only its own rows, as Debian's rpcinfo shows them.
list_own_rows() {
    local words
    for words in "" -p -s 127.0.0.1 ::1; do
        echo "\$ rpcinfo $words"
        timeout 30 "$rpcinfo" $words 2>&1 < /dev/null
    done
}

# What these are of Debian's daemon.
ask_debians() {
    local debians number
    debians=$(dpkg -L rpcbind 2> /dev/null | grep '/sbin/rpcbind$' | head -n 1)
    [ -x "$debians" ] || { skip "rpcbind is not installed"; return; }
    "$debians" -f > "$work/debians" 2>&1 &
    number=$!
    for _ in $(seq 50); do
        "$rpcinfo" > /dev/null 2>&1 && break
        sleep 0.1
    done
    list_own_rows > "$work/rows"
    kill "$number" && wait "$number" 2> /dev/null
}

# With a netconfig of IPv4 alone Debian's has rows of IPv4 alone, ours those of its sockets.
compare_own_rows() {
    [ -s "$work/rows" ] && has_netid udp6 || return
    list_own_rows | diff "$work/rows" -
    judge $? "own rows are those of Debian's rpcbind"
}

# A DUMP of version 4 over TCP [::1]: the reply is one fragment that has the twelve rows of program 100000 after a head
# of 24 bytes, and a word of its end. A row has 56 bytes on tcp and udp, 48 on tcp6 and udp6, and 64 on local.
dump_over_loopback6() {
    local socket reply
    exec {socket}<> /dev/tcp/::1/111 || return 1
    printf '\x80\x00\x00\x28\x00\x00\x00\x01\x00\x00\x00\x00\x00\x00\x00\x02\x00\x01\x86\xa0\x00\x00\x00\x04\x00\x00\x00\x04' >&"$socket"
    printf '\0%.0s' $(seq 16) >&"$socket"
    reply=$(timeout 5 head -c 688 <&"$socket" | od -An -v -tx1 | tr -d ' \n')
    echo "$reply" > "$work/reply"
    exec {socket}>&-
    [ "${#reply}" -eq 1376 ] && [ "${reply:0:56}" = 800002ac000000010000000100000000000000000000000000000000 ]
}

run_libtirpc() {
    command -v cc > /dev/null || { skip "there is no cc"; return; }
    if ! cc -o "$work/register" tests/peers/register.c $(pkg-config --cflags --libs libtirpc 2> /dev/null \
        || echo -I/usr/include/tirpc -ltirpc) 2> "$work/cc"; then
        skip "libtirpc is not installed (package libtirpc-dev)"
        return
    fi
    wants "a libtirpc program" 'version 2: is not found any more: yes' "$work/register"
}

# The lines of the registered program.
registered() {
    "$rpcinfo" 127.0.0.1 2> /dev/null | awk -v program="$1" '$1 == program'
}

# Waits until the program is registered, or is not any more.
await() {
    local is_there
    for _ in $(seq 100); do
        is_there=no
        [ -z "$(registered "$2")" ] || is_there=yes
        [ "$is_there" = "$1" ] && return
        sleep 0.1
    done
    return 1
}

# Waits until the program is registered on a netid.
await_netid() {
    for _ in $(seq 100); do
        ! registered "$1" | awk -v netid="$2" '$3 == netid { found = 1 } END { exit !found }' || return 0
        sleep 0.1
    done
    return 1
}

# Waits until what a service has registered is its own user's: rpc.rwalld registers, removes that, and registers again.
await_owner() {
    for _ in $(seq 100); do
        [ "$(registered "$2" | awk '{ print $NF }' | sort -u)" != "$(owner_of "$1")" ] || return 0
        sleep 0.1
    done
    return 1
}

# Ends the service of this name. Its process has another number than the one that started if it goes into the
# background.
end_service() {
    local number
    for number in $(pidof "$1"); do kill "$number"; done
}

# As whom a service registers: it may change to a user before.
owner_of() {
    case $1 in
        rpc.statd) id -u statd ;;
        rpc.rusersd | rpc.rwalld) id -u nobody ;;
        *) echo superuser ;;
    esac
}

# Starts a service, wants its program to be registered on each netid that is told, as its own user, and not any more at its
# end, unless it leaves its rows behind at any rpcbind. Between, it runs a client, if there is one: a function.
run_service() {
    local name=$1 program_number=$2 netids=$3 client=$4 netid
    shift 4
    command -v "$1" > /dev/null || { skip "$name is not installed"; return; }
    echo "\$ $*"
    "$@" > "$work/service" 2>&1 < /dev/null &
    await yes "$program_number"
    judge $? "$name registers"
    for netid in $netids; do
        has_netid "$netid" || continue
        await_netid "$program_number" "$netid"
        judge $? "$name is registered on $netid"
    done
    await_owner "$name" "$program_number"
    judge $? "$name is registered as its own user"
    registered "$program_number" | sed 's/^/    /'
    [ -z "$client" ] || "$client"
    end_service "$(basename "$1")"
    [ "$name" != rpc.rwalld ] || return
    await no "$program_number"
    judge $? "$name is registered no more at its end"
}

has_netid() {
    grep -q "^$1[[:space:]]" /etc/netconfig
}

ask_mountd() {
    command -v showmount > /dev/null || { skip "showmount is not installed"; return; }
    wants "showmount -e" 'Export list for 127.0.0.1' showmount -e 127.0.0.1
}

ask_rusersd() {
    command -v rusers > /dev/null || { skip "rusers is not installed"; return; }
    # It has nobody to tell, and its status is 1 if nobody answers.
    echo "\$ rusers -a 127.0.0.1"
    timeout 30 rusers -a 127.0.0.1 > "$work/written" 2>&1
    judge $? "rusers"
    sed 's/^/    /' "$work/written"
}

run_services() {
    [ -x "$rpcinfo" ] || { skip "no services without rpcinfo"; return; }
    run_service rpc.statd 100024 "udp tcp udp6 tcp6" "" rpc.statd -F --no-notify
    run_service rpc.mountd 100005 "udp tcp udp6 tcp6" ask_mountd rpc.mountd -F
    run_service rpc.rstatd 100001 udp "" rpc.rstatd
    run_service rpc.rusersd 100002 udp ask_rusersd rpc.rusersd
    run_service rpc.rwalld 100008 udp "" rpc.rwalld
    run_service rpc.rquotad 100011 "udp tcp udp6 tcp6" "" rpc.rquotad -F
}

# A folder that nfs-ganesha serves by version 3.
write_ganesha() {
    rm -rf /run/served
    mkdir -p /run/served || return 1
    echo hello > /run/served/greeting
    cat > "$work/ganesha.conf" <<'END'
NFS_CORE_PARAM { Protocols = 3; Enable_NLM = false; Enable_RQUOTA = false; }
NFSv4 { Graceless = true; RecoveryBackend = fs; }
EXPORT {
    Export_Id = 1; Path = /run/served; Pseudo = /run/served; Access_Type = RW; Squash = No_Root_Squash; SecType = sys;
    Protocols = 3; Transports = UDP, TCP; FSAL { Name = VFS; }
}
END
}

ask_ganesha() {
    mount_from 127.0.0.1
    mount_by_kernel 127.0.0.1 tcp
    mount_by_kernel 127.0.0.1 udp
    has_netid tcp6 || return
    mount_from ::1
    mount_by_kernel "[::1]" tcp6
    mount_by_kernel "[::1]" udp6
}

# A mount of NFS version 3 by the kernel. If it has none, mount.nfs comes as far as the ports of nfs and mountd.
mount_by_kernel() {
    local host=$1 protocol=$2 found='prog (100003 vers 3 prot [A-Z]+ port 2049|100005 vers 3 prot [A-Z]+ port [0-9]+)$'
    command -v mount.nfs > /dev/null || { skip "mount.nfs is not installed (package nfs-common)"; return; }
    echo "\$ mount.nfs -v -o vers=3,nolock,proto=$protocol $host:/run/served /run/mounted"
    mkdir -p /run/mounted
    timeout 30 mount.nfs -v -o "vers=3,nolock,proto=$protocol" "$host:/run/served" /run/mounted > "$work/written" 2>&1
    sed 's/^/    /' "$work/written"
    [ "$(grep -cE "$found" "$work/written")" = 2 ]
    judge $? "mount.nfs finds both ports of $host by $protocol"
    ! grep -q 'mount(2): No such device' "$work/written" || { skip "the kernel has no NFS"; return; }
    cmp -s /run/served/greeting /run/mounted/greeting
    judge $? "a mount of $host by $protocol"
    umount /run/mounted
}

# A whole mount of NFS version 3 in user space: each port is looked up.
mount_from() {
    local host=$1 place=nfs://$1/run/served
    command -v showmount > /dev/null && wants "showmount -e" '/run/served' showmount -e "$host"
    command -v nfs-ls > /dev/null || { skip "nfs-ls is not installed (package libnfs-utils)"; return; }
    rm -f /run/served/copy
    wants "nfs-ls" 'greeting' nfs-ls "$place?version=3"
    wants "nfs-cat" 'hello' nfs-cat "$place/greeting?version=3"
    wants "nfs-cp" 'copied' nfs-cp "$here/crates.txt" "$place/copy?version=3"
    cmp -s "$here/crates.txt" /run/served/copy
    judge $? "what was copied is the same"
}

run_ganesha() {
    [ -x "$rpcinfo" ] || return
    command -v ganesha.nfsd > /dev/null || { skip "nfs-ganesha is not installed"; return; }
    write_ganesha || { skip "no folder for nfs-ganesha"; return; }
    run_service nfs-ganesha 100003 "udp tcp udp6 tcp6" ask_ganesha \
        ganesha.nfsd -F -f "$work/ganesha.conf" -L "$work/ganesha.log" -p /run/ganesha/ganesha.pid
    await no 100005
    judge $? "mountd of nfs-ganesha is registered no more at its end"
}

# What the daemon recorded agrees with a replay, and what a client got over its socket was given by the core.
run_check() {
    grep -q 'the limit of this record' "$work/record" && echo "the record reached its limit"
    check_record "$work/record"
    judge $? "the record is what a replay gives"
    grep -q "^#> pending $(cat "$work/reply")\$" "$work/record"
    judge $? "a reply that a client got is in the record"
}

# All clients and services, with /etc/netconfig as it stands, and a daemon with these words too.
run_all() {
    local words=(--local /run/rpcbind.sock --loopback6 "${@:2}")
    echo "== $1"
    [ -z "${RECORD:-}" ] || words+=(--record "$work/record")
    start_daemon "$work/daemon" "${words[@]}" || exit 1
    cat "$work/daemon"
    run_rpcinfo
    compare_own_rows
    dump_over_loopback6
    judge $? "a DUMP of version 4 over TCP [::1]"
    run_libtirpc
    run_services
    run_ganesha
    kill -0 "$daemon" 2> /dev/null
    judge $? "the daemon serves on"
    kill "$daemon"
    wait "$daemon" 2> /dev/null
    daemon=
    [ -z "${RECORD:-}" ] || run_check
}

prepare
[ ! -x "$rpcinfo" ] || ask_debians
run_all "/etc/netconfig as it is"
# The file of the local socket was left behind: the next start mends it.
run_all "every address, /etc/netconfig as it is" --bind :: --announce 127.0.0.1 --announce ::1
if [ -e /etc/netconfig ]; then
    mount --bind "$work/netconfig" /etc/netconfig && run_all "/etc/netconfig with IPv4 alone"
fi
echo "$passed passed, $failed failed, $skipped skipped"
[ "$failed" -eq 0 ]
