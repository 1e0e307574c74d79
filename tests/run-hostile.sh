#!/usr/bin/env bash
# Attacks the built daemon over sockets, each attack bounded in count and time, with a good client beside it that
# makes calls over UDP and over TCP, a connection for each. A line for each attack says how many calls were answered
# of how many, the longest wait, and what of the daemon's own memory is resident before and after. An attack fails
# if fewer than 99 of 100 calls were answered, memory grew by a page, or one waited over 50 milliseconds and over 16
# times as long as any in the two seconds before the attack, and so in a second run of the attack, since the machine may
# have stood still in the first.
# tests/hostile/attacks.py has them. A daemon beside them stands still for 34 seconds, and must answer all 200 calls then
# that were half sent before and whole in time.
#
# Some attacks need strangers, and so root; tests/hostile/strangers.py has them. `reflector` fails if more than twice the
# bytes of a stranger's datagram come back to it, `primed_statistics` if a stranger's look-ups of what is not there are in
# the statistics, and `flood_of_one_network`, beside which a good client calls too, and `flood_of_48_bits` if in any second
# more of a network's or of a host's calls are answered than --udp-rate says; `flood_of_chosen_places` if others can choose
# whose share of that they take; `guessed_numbers` and `forged_answers` if the number of a forwarded call can be told, or a
# datagram from where nothing was called is taken for its answer.
#
# `kills_40` kills a daemon that keeps its rows 40 times by SIGKILL, each time under a load of SETs and UNSETs over TCP and
# UDP, and starts it with the same file. It fails if a change that was answered TRUE is not there then, a row that was
# never set is, the order is another, or a line of the file is none that a replay answers with TRUE; tests/hostile/kills.py
# has it. With RECORD=1 the record of each of these daemons has to agree too.
#
# If strace is installed, each call of the system that serves clients fails then for three seconds, with each error
# that its manual names: tests/hostile/faults.py says what is expected.
#
# With RECORD=1 in the environment the daemon records its events, up to as many bytes as a replay reads; an attack then
# also fails if `rpcbind replay --check` does not agree with its record, or the good client's first reply over TCP is
# not in it. A call may then wait 200 milliseconds, since the lists that are given are written down too. No faults are
# tried then.
#
# The program may be another one: `PROGRAM=PATH make hostile`. Words are names of attacks or faults, in place of all: as
# half_open_1500, kills_40, accept4_EPERM, accept4 for all of its errors, and faults for all faults. As root it
# runs in a network namespace of its own, in which attackers and good client have addresses of their own; else on the
# loopback, at high ports, where all of them are peers of this host and none is a stranger. Needs python3. The last line
# is 'N passed, N failed'; the status is 1 if one failed.
set -u
here=$(cd "$(dirname "$0")" && pwd) || exit 1
export PROGRAM=${PROGRAM:-$here/../crates/rpcbind/out/rpcbind}
export PYTHONPATH=$here

if [ "${1:-}" = --inside ]; then
    shift
    ip link set lo up || exit 1
    exec python3 -B "$here/hostile/attacks.py" --hosts "$@"
fi
[ -x "$PROGRAM" ] || { echo "no program $PROGRAM: run 'make' first"; exit 1; }
command -v python3 > /dev/null || { echo "skipped: there is no python3"; exit 0; }
if [ "$(id -u)" -eq 0 ] && unshare --net true 2> /dev/null && command -v ip > /dev/null; then
    exec unshare --net --mount --propagation private --pid --fork --kill-child --mount-proc "$0" --inside "$@"
fi
exec python3 -B "$here/hostile/attacks.py" "$@"
