# Sourced by the scripts that run the built daemon: `program` is its path, and `daemon` its number once it was started.

# Starts it with these words after `serve`; what it writes goes to the file. The status is 1 if it doesn't listen, as
# when it has ended: its last words are shown then. One with checks may take minutes, on a busy machine, for its memory and
# to set kept rows again.
start_daemon() {
    local written=$1
    shift
    : > "$written" # what a daemon before wrote there is not to be taken for its own
    "$program" serve "$@" >> "$written" 2>&1 &
    daemon=$!
    await_listening "$written" "$daemon"
}

# Waits until a program, by its number, writes to a file that it listens. If it doesn't it is ended, its last words are shown,
# and the status is 1.
await_listening() {
    local written=$1 number=$2
    for _ in $(seq 6000); do
        grep -q listening "$written" && return
        kill -0 "$number" 2> /dev/null || break
        sleep 0.05
    done
    echo "what was started does not listen, and wrote at last:"
    tail -n 5 "$written" | sed 's/^/    /'
    kill "$number" 2> /dev/null
    return 1
}

# Lets calls of the daemon fail, by strace, until that is ended; the status is 1 if it could not be attached.
inject() {
    strace -qq -o /dev/null -e "trace=${1%%:*}" -e "inject=$1" -p "$daemon" > /dev/null 2>&1 &
    tracer=$!
    for _ in $(seq 600); do
        ! grep -q "^TracerPid:[[:space:]]*$tracer$" "/proc/$daemon/status" || return 0
        kill -0 "$tracer" 2> /dev/null || break
        sleep 0.1
    done
    return 1
}

# Runs the events of a daemon's record again, by the command in its first line. The status is 0 if all outputs agree.
check_record() {
    local words
    eval "words=($(sed -n '1s/^# rpcbind //p' "$1"))" # a path stands there in quotes, and has none
    "$program" "${words[@]}" < "$1"
}

# Counts a check by the status given in `passed` or `failed`, and says what failed.
judge() {
    if [ "$1" -eq 0 ]; then
        passed=$((passed + 1))
    else
        failed=$((failed + 1))
        echo "failed: $2"
    fi
}
