#!/usr/bin/env bash
# Runs the built programs over their rows, over inputs that are made here and over sockets, and checks what must hold in the
# repository. With two words these are the programs rpcbind and rpcinfo that it runs, built with checks: such a program
# does not run in little memory, so that is said and not tried. Further words are the checks to run, as run_starts; the two
# programs are then empty words for those that `make` built. With --of rpcinfo before all words it runs the checks that need
# rpcinfo alone, and with --of others those that are left.
#
# What is run and checked stands in the files that are sourced here, and in two that are run for each of their scenarios. The
# first lines of each say what it is for:
#
#     rows.sh        rows of tests/rows and tests/rows-rpcinfo, and inputs that no file can hold
#     starts.sh      starts of the daemon, what it says of them, and help
#     managed.py     the daemon under a service manager, which hands over sockets and is told
#     records.sh     its records and logs, and its rest
#     serving.sh     a daemon that is short of something, and who may call it
#     kept_rows.py   a daemon that keeps its rows
#     asking.sh      forms of rpcinfo over sockets
#     refused.sh     programs whose memory is refused
#     releases.sh    the package, and what a release refuses
#     repository.sh  proofs by hand, names in documents, words and versions
#
# Each check has a folder of its own, `work`, and runs beside others: as root in namespaces of its own; as another user,
# those that need a port one after another.
#
# Each difference is printed. The last line is 'N passed, N failed'; the status is 1 if one failed.
set -u
cd "$(dirname "$0")/.." || exit 1
. tests/machine.sh
. tests/beside.sh

portless=()   # the checks that need no port
checks=()     # those that need one, and then all
of_rpcinfo=() # those that run no rpcbind
waiting=" missing_address_is_waited_for" # those that wait for most of their time

# Those that take longest begin first.
longest=(run_rpcinfo_endless_reply run_rpcinfo_long_reply_cut_off run_rpcinfo_longest_texts run_rpcbind_over_files
    long_journals_are_read run_rows_by_the_model run_starts other_lines_are_refused run_many_events most_rows_are_kept run_records)
scenarios=(tests/kept_rows.py tests/managed.py)
for part in daemon rows starts asking records serving refused releases repository; do
    . "tests/$part.sh"
done

passed=0
failed=0

# Compares a file with what is expected of it, and prints the first lines of the difference.
same() {
    diff --label "$3, wanted" --label "$3, got" -u "$1" "$2" | head -n 20
    return "${PIPESTATUS[0]}"
}

# Compares what the last run wrote and how it ended with files of what is expected, and a status.
as_wanted() {
    local stdout=$1 stderr=$2 status=$3 bad=0
    same "$stdout" "$work/stdout" "standard output" || bad=1
    same "$stderr" "$work/stderr" "standard error" || bad=1
    if [ "$got" -ne "$status" ]; then
        echo "status: wanted $status, got $got"
        bad=1
    fi
    return $bad
}

# Runs the program with these words over a file.
run() {
    local input=$1
    shift
    "$program" "$@" < "$input" > "$work/stdout" 2> "$work/stderr"
    got=$?
}

# Runs one check, where run_checks has begun it. Without a network of its own it waits for the ports.
run_inside() {
    if [ -n "$own_namespaces" ]; then
        ip link set lo up || exit 1
    elif [[ " ${portless[*]} " != *" $1 "* ]]; then
        exec {ports}> "$work/ports" && flock "$ports" || exit 1
    fi
    declare -F "$1" > /dev/null || RPCBIND=$program RPCINFO=$rpcinfo WORK=$work exec "$(grep -lx "def $1():" "${scenarios[@]}")" "$1"
    work=$work/$1
    mkdir "$work" || exit 1
    "$1"
    echo "$passed passed, $failed failed"
}

# The checks by their names, the longest first.
in_order() {
    local check
    for check in "${longest[@]}"; do
        [[ " $* " != *" $check "* ]] || echo "$check"
    done
    for check in "$@"; do
        [[ " ${longest[*]} " == *" $check "* ]] || echo "$check"
    done
}

if [ "${1:-}" = --inside ]; then
    run_inside "$2"
    exit
fi

of=
[ "${1:-}" != --of ] || { of=$2 && shift 2; }

export program=${1:-$PWD/crates/rpcbind/out/rpcbind}
export rpcinfo=${2:-$PWD/crates/rpcinfo/out/rpcinfo}
export has_checks=${1:+1}
version=$(packaging/changelog.sh version) || exit 1
work=$(mktemp -d) || exit 1
export version work own_namespaces=
trap 'end_beside; rm -rf "$work"' EXIT
trap 'exit 1' INT TERM HUP

make_slots "$work/slots" "$(count_cores)" || exit 1
runner=(tests/run-rows.sh --inside)
if has_namespaces; then
    own_namespaces=1
    runner=("${namespaces[@]}" "${runner[@]}")
fi
checks+=($(for file in "${scenarios[@]}"; do RPCBIND= RPCINFO= WORK= "$file" --names; done))
mapfile -t checks < <(in_order "${portless[@]}" "${checks[@]}")
needed=("$program" "$rpcinfo")
case $of in
    rpcinfo) checks=("${of_rpcinfo[@]}") needed=("$rpcinfo") ;;
    others) mapfile -t checks < <(printf '%s\n' "${checks[@]}" | grep -vxF "$(printf '%s\n' "${of_rpcinfo[@]}")") ;;
esac
[ $# -le 2 ] || checks=("${@:3}")
for built in "${needed[@]}"; do
    why=$(why_not "$built")
    if [ -n "$why" ]; then
        judge 1 "the rows are not run: $why"
        checks=()
        [ "$of" = rpcinfo ] || checks=(check_repository)
    fi
done
run_checks rows "${checks[@]}"
echo "$passed passed, $failed failed"
[ "$failed" -eq 0 ]
