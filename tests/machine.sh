# Sourced by the scripts behind `make run`, `make` and `make test`: the kit that they need, what of this machine they
# may use, and how long they take.

# What the repository was proved with, by `rt version`. The sum is that of the logic: kits of one sum prove the same.
kit_name=rattle-kit-13f
kit_logic=dac8208d650f15bf

# Says which kit is needed and which is here. Another logic is only warned of. The status is 1 if there is no `rt`.
say_kit() {
    local found logic
    if ! found=$(rt version 2> /dev/null); then
        echo "no rt on the PATH: unpack a kit of the Rattle toolchain (wanted: $kit_name, or another with logic" \
            "$kit_logic), and put its bin/ on the PATH" >&2
        return 1
    fi
    logic=${found##*logic }
    echo "kit: $found, from $(dirname "$(readlink -f "$(command -v rt)")")"
    if [ "$logic" = "$kit_logic" ]; then
        echo "     wanted is logic $kit_logic, under whatever name of the kit: this is it"
    else
        echo "     warning: this was proved with $kit_name, logic $kit_logic; with another logic a proof may fail" >&2
    fi
}

# The processors that this process may use: those that it may run on, or fewer by the quota of its control group.
count_cores() {
    local cores quota period
    cores=$(nproc)
    if { read -r quota period < /sys/fs/cgroup/cpu.max; } 2> /dev/null && [ "$quota" != max ]; then
        [ "$((quota / period))" -ge "$cores" ] || cores=$((quota / period))
        [ "$cores" -gt 0 ] || cores=1
    fi
    echo "$cores"
}

# The memory in MiB that is free here, under the limit of the control group too.
count_memory() {
    local free limit held
    free=$(awk '$1 == "MemAvailable:" { print int($2 / 1024) }' /proc/meminfo)
    if { read -r limit < /sys/fs/cgroup/memory.max; } 2> /dev/null && [ "$limit" != max ]; then
        held=$(awk '$1 == "anon" { print $2 }' /sys/fs/cgroup/memory.stat)
        limit=$(((limit - held) / 1048576))
        [ "$limit" -ge "$free" ] || free=$limit
    fi
    echo "$free"
}

# How many commands may work side by side here, if each takes this many MiB of memory.
count_slots() {
    local slots cores
    slots=$(($(count_memory) / $1))
    cores=$(count_cores)
    [ "$slots" -gt 0 ] || slots=1
    [ "$slots" -lt "$cores" ] || slots=$cores
    echo "$slots"
}

# The crates of crates.txt, one a line.
list_crates() {
    sed -nE 's/^([a-z0-9_]+)([: ].*)?$/\1/p' crates.txt
}

# A number of seconds, as '3 min 20 s'.
in_minutes() {
    if [ "$1" -ge 60 ]; then
        echo "$(($1 / 60)) min $(($1 % 60)) s"
    else
        echo "$1 s"
    fi
}

# What a minute of docs/TIMINGS.md is here, by a fixed loop that was timed beside that gate too: the middle of three runs.
measure_pace() {
    local here there
    here=$(for _ in 1 2 3; do tests/fixed-loop.py; done | sort -n | sed -n 2p)
    there=$(told_number '.*processor seconds, ([0-9.]+) on average.*')
    awk -v here="${here:-1}" -v there="${there:-${here:-1}}" 'BEGIN { print here / there }'
}

# Times the fixed loop every two minutes until this is ended, and writes what it took into a file.
measure_beside() {
    trap 'kill "${waits:-}" 2> /dev/null; exit' TERM
    while :; do
        tests/fixed-loop.py >> "$1"
        sleep 120 &
        waits=$!
        wait "$waits"
    done
}

# Says what it took, for docs/TIMINGS.md.
say_beside() {
    sort -n "$1" | awk '{ took[NR] = $1; sum += $1 }
        END { if (NR) printf "a fixed loop took %.2f to %.2f processor seconds, %.2f on average\n", took[1], took[NR], sum / NR }'
}

# The processor seconds, user and system, of all commands that have ended, of what `times` wrote into a file.
processor_seconds() {
    sed -n 2p "$1" | tr ms ' ' | awk '{ printf "%d", $1 * 60 + $2 + $3 * 60 + $4 + 0.5 }'
}

# A number of docs/TIMINGS.md: what the brackets of a pattern of sed find there.
told_number() {
    sed -nE "s/$1/\\1/p" docs/TIMINGS.md 2> /dev/null | head -n 1 | tr -d ,
}

# About how many minutes `make` takes from nothing on this many processors at this pace. What nobody waits for is proved
# beside the longest chain.
minutes_of_make() {
    awk -v cores="$1" -v pace="$2" -v proofs="$(told_number '^\| all \|[^|]*\|[^|]*\| ([0-9,]+) min .*')" \
        -v chain="$(told_number '^The longest chain of proofs has ([0-9,]+) minutes.*')" 'BEGIN {
            all = 1.1 * proofs / cores
            printf "%.0f\n", pace * (all > chain ? all : chain) + 0.5
        }'
}

# The same of `make test`, in which each proof works on one processor, and all else comes before or after the proofs.
minutes_of_test() {
    awk -v cores="$1" -v pace="$2" -v all="$(told_number '^All together are ([0-9,]+) processor minutes.*')" \
        -v proofs="$(told_number '^\| all \|[^|]*\|[^|]*\| ([0-9,]+) min .*')" \
        -v chain="$(told_number '^The longest chain of proofs has ([0-9,]+) minutes.*')" 'BEGIN {
            chain += 1.1 * (all - proofs) / cores
            all *= 1.1 / cores
            printf "%.0f\n", pace * (all > chain ? all : chain) + 0.5
        }'
}
