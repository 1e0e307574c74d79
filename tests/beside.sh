# Sourced by the scripts whose parts run side by side: run-all.sh, run-tests.sh, run-rows.sh and two-hosts.sh. What computes takes
# a slot from a pipe, whose path is SLOTS in the environment, and puts it back at its end: so no more of it runs at a time
# than there are processors, also if several of these scripts do. Two hosts have slots of their own.

# Namespaces in which a check has a network, mounts and processes of its own. What it started ends with it.
namespaces=(unshare --net --mount --propagation private --pid --fork --kill-child --mount-proc)

# Whether this user may have them, and give them a network.
has_namespaces() {
    [ "$(id -u)" -eq 0 ] && type unshare ip > /dev/null 2>&1 && "${namespaces[@]}" true 2> /dev/null
}

# Makes a pipe at this path with this many slots in it, if there is none from whoever started this.
make_slots() {
    [ -z "${SLOTS:-}" ] || return 0
    export SLOTS=$1
    mkfifo "$SLOTS" && exec {slots}<> "$SLOTS" && yes '' | head -n "$2" >&"$slots"
}

take_slot() {
    read -r < "$SLOTS"
}

put_slot() {
    echo > "$SLOTS"
}

# Says why a program can't be run, if so: it is not there, or does not start.
why_not() {
    if [ ! -x "$1" ]; then
        echo "there is no program $1, which 'make' builds"
    elif ! "$1" --version > /dev/null 2>&1; then
        echo "$1 does not start: $("$1" --version 2>&1 | tail -n 1)"
    fi
}

say_progress() {
    printf '%12s  %s\n' "$(in_minutes "$SECONDS")" "$*"
}

# The counts in the last line of a file, 'N passed, N failed', as two numbers. The status is 1 if it has none.
read_counts() {
    tail -n 1 "$1" | sed -nE 's/^([0-9]+) passed, ([0-9]+) failed$/\1 \2/p' | grep .
}

# Runs a command in a session of its own, all of which ends with it, and has a file take what it says.
run_alone() {
    local said=$1 run status
    shift
    trap '' INT HUP
    trap 'kill -KILL -- "-${run:-}" 2> /dev/null; wait; exit 1' TERM
    setsid "$@" > "$said" 2>&1 < /dev/null &
    run=$!
    wait "$run"
    status=$?
    kill -KILL -- "-$run" 2> /dev/null
    return "$status"
}

# Runs checks side by side, each by the command in `runner` and its name, and adds their counts. Those named in `waiting`
# compute little: they begin at once, and take no slot.
run_checks() {
    local title=$1 check
    shift
    for check in "$@"; do
        ! is_waiting "$check" || begin_check &
    done
    for check in "$@"; do
        is_waiting "$check" || { take_slot; { begin_check; put_slot; } & }
    done
    wait
    for check in "$@"; do
        count_check "$check"
    done
}

is_waiting() {
    [[ " $waiting " == *" $1 "* ]]
}

begin_check() {
    local name=${check#run_}
    say_progress "$title: ${name//_/ }"
    run_alone "$work/$check.said" "${runner[@]}" "$check"
    sed '$d' "$work/$check.said"
}

count_check() {
    local counts
    if counts=$(read_counts "$work/$1.said"); then
        passed=$((passed + ${counts% *}))
        failed=$((failed + ${counts#* }))
    else
        judge 1 "$1 has not ended: $(tail -n 1 "$work/$1.said")"
    fi
}

# Ends what this runs in the background.
end_beside() {
    local running
    trap '' INT TERM HUP
    running=$(jobs -p)
    [ -z "$running" ] || kill $running 2> /dev/null
    wait
}
