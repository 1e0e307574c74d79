#!/usr/bin/env bash
# Proves each crate of crates.txt and builds the programs, as many crates side by side as processors and memory allow.
#
# A crate begins as soon as those that it stands on are proved, the one with the longest chain of others above it first, and
# no more crates and processes at a time than one more than there are processors. It works in one process, as two take a third
# more processor time for three quarters of the time, and gives way (nice) if its chain has less than 80 % of the longest one's
# seconds. Processors that nothing else waits for go to the crate that begins, four at most; but a program works in one, as three
# do it no sooner.
#
# A crate is proved from nothing over the statements of those below it, by tests/prove-crate.py. With KEEP=1, or if a crate has
# kept a proof, as `rt check` does, `rt` proves each crate and keeps its proof, which takes four times the disk, and more time
# for the programs; after a change it takes up what stays, and so does `rt check`.
#
# `rt` lets one command at a time work in a crate's folder or in one below it. So where it proves a crate it does so in a room
# of its own: a folder with links to its files and to the libraries below it, which has its out/ meanwhile. The crates'
# own folders are locked for that time, as `rt` locks them.
#
# If a crate fails, its output is shown and those above it are not tried. The status is 1 if one failed.
set -u
cd "$(dirname "$0")/.." || exit 1
. tests/machine.sh

# The rooms are on the disk of the crates, as such links lead to no other, and where `rt ci` seeks no crates.
if [ -d .git ]; then rooms=$PWD/.git/proving; else rooms=$PWD/out/proving; fi
memory_of_one=3000 # in MiB

# What a check only warns of and `rt ci` refuses: a misspelled constructor, or a tactic's choice, in what a contract reads.
refused_warning='^(\./)?(src|specs)/\S+ (warning: this pattern binds a variable spelled like a constructor|(note|warning): `search` stands in)|^warning: calls of a tactic that chose a term'

names=()         # the crates
declare -A uses  # of each crate those of ours that it names, as crates.txt has them
declare -A under # all crates of ours below it
declare -A costs # its seconds by docs/TIMINGS.md, or a guess by its lines of code
declare -A chain # its seconds and those of the longest chain of crates above it
declare -A state # waiting, running, proved, failed or skipped
declare -A since # when it began
declare -A share # in how many processes
declare -A way   # how far these give way to others
declare -A pids  # its process

# ---- crates

read_crates() {
    local name word
    mapfile -t names < <(list_crates)
    for name in "${names[@]}"; do
        state[$name]=waiting
    done
    for name in "${names[@]}"; do
        uses[$name]=
        for word in $(sed -nE "s/^$name( [^:]*)?:([^#]*).*/\2/p" crates.txt); do
            [ -z "${state[$word]:-}" ] || uses[$name]+=" $word"
        done
    done
}

# Follows the crates upwards until no chain grows any more.
measure_chains() {
    local name below least grows=1
    for name in "${names[@]}"; do
        costs[$name]=$(told_number "^\| $name \|[^|]*\|[^|]*\| ([0-9,]+) .*")
        [ -n "${costs[$name]}" ] || costs[$name]=$(($(find "crates/$name/src" -name '*.rt' -exec cat {} + | wc -l) / 10))
        chain[$name]=${costs[$name]}
    done
    while [ "$grows" = 1 ]; do
        grows=0
        for name in "${names[@]}"; do
            for below in ${uses[$name]}; do
                least=$((costs[$below] + chain[$name]))
                [ "${chain[$below]}" -ge "$least" ] || { chain[$below]=$least; grows=1; }
            done
        done
    done
}

# Each crate stands in crates.txt after those that it names.
collect_under() {
    local name used
    for name in "${names[@]}"; do
        under[$name]=$(for used in ${uses[$name]}; do printf '%s\n' "$used" ${under[$used]}; done | sort -u)
    done
}

# Those that wait for nothing but a processor, the longest chain first.
list_ready() {
    local name below
    for name in "${names[@]}"; do
        [ "${state[$name]}" = waiting ] || continue
        for below in ${uses[$name]}; do
            [ "${state[$below]}" = proved ] || continue 2
        done
        echo "${chain[$name]} $name"
    done | sort -rn | cut -d ' ' -f 2
}

# ---- one proof

# Waits for any `rt` that works in a crate, and keeps others out until this script ends.
lock_crates() {
    local name folder
    command -v flock > /dev/null || return 0
    for name in "${names[@]}"; do
        exec {folder}< "crates/$name" || return 1
        flock -n "$folder" && continue
        echo "waiting for another rt to finish in crates/$name"
        flock "$folder"
    done
}

link_folder() {
    [ -d "$1" ] || return 0
    mkdir -p "$2" && { cp -al "$1" "$2" 2> /dev/null || cp -a "$1" "$2"; }
}

# Makes the room of a crate, whose crates.txt lists it and those below it alone.
furnish() {
    local name=$1 room=$rooms/$1 crate part
    mkdir -p "$room/crates/$name" || return 1
    for crate in ${under[$name]} "$name"; do
        grep -E "^$crate([: ]|\$)" crates.txt >> "$room/crates.txt" || return 1
        for part in src specs proofs; do
            link_folder "crates/$crate/$part" "$room/crates/$crate" || return 1
        done
        [ "$crate" = "$name" ] || link_folder "crates/$crate/out/rlib" "$room/crates/$crate/out" || return 1
    done
    [ ! -d "crates/$name/out" ] || mv "crates/$name/out" "$room/crates/$name/out"
}

# Gives the crate its out/ back, with what was made there.
put_back() {
    local made=$rooms/$1/crates/$1/out
    if [ -d "$made" ]; then
        rm -rf "crates/$1/out"
        mv "$made" "crates/$1/out"
    fi
    if [ -d "${rooms:?}/$1" ]; then
        mv "$rooms/$1" "$rooms/$1.gone"
        rm -rf "$rooms/$1.gone" & # which takes seconds
    fi
}

# Proves a crate, and says on `ended` how that ended. What it runs ends with it, and ends all that it started.
prove() {
    local name=$1 status=1 words=(tests/prove-crate.py "$1" "$2") out=crates/$1/out run
    trap '' INT HUP
    trap 'kill "${run:-}" 2> /dev/null; wait; exit 1' TERM
    if [ -n "$keeps" ]; then
        words=(rt lib --jobs "$2") out=out
        [ ! -f "crates/$name/src/main.rt" ] || words=(rt run --jobs "$2" -- --version)
    fi
    if [ -z "$keeps" ] || { furnish "$name" && cd "$rooms/$name/crates/$name"; }; then
        nice -n "$3" "${words[@]}" < /dev/null &
        run=$!
        wait "$run"
        status=$?
    fi
    times > "$logs/$name.times"
    if grep -qE "$refused_warning" "$logs/$name"; then
        echo "rt ci refuses what these warnings name"
        rm -rf "$out"/rlib "$out"/*.stamp "$out"/*.sum
        status=1
    fi
    echo "$name $status" >&"$ended"
}

# ---- all of them

say() {
    local seconds
    seconds=$(in_minutes "$SECONDS")
    printf '%12s  %s\n' "$seconds" "$*"
}

# How many crates are in one of these states.
count() {
    local name found=0
    for name in "${names[@]}"; do
        [[ " $* " == *" ${state[$name]} "* ]] && found=$((found + 1))
    done
    echo "$found"
}

# The longest chain among the crates that wait for others: one that is ready and has a shorter chain can be late.
longest_to_come() {
    local name longest=0
    for name in "${names[@]}"; do
        [ "${state[$name]}" = waiting ] && [[ " $* " != *" $name "* ]] || continue
        [ "${chain[$name]}" -le "$longest" ] || longest=${chain[$name]}
    done
    echo "$longest"
}

# What is left of the longest chain that begins with a crate that is being proved, as far as its seconds tell.
longest_running() {
    local name done left longest=0
    for name in "${names[@]}"; do
        [ "${state[$name]}" = running ] || continue
        done=$((SECONDS - since[$name]))
        left=$((chain[$name] - (done < costs[$name] ? done : costs[$name])))
        [ "$left" -le "$longest" ] || longest=$left
    done
    echo "$longest"
}

# How many processes work that give way so far at most.
count_working() {
    local name working=0
    for name in "${names[@]}"; do
        if [ "${state[$name]}" = running ] && [ "${way[$name]}" -le "$1" ]; then
            working=$((working + share[$name]))
        fi
    done
    echo "$working"
}

# Begins the crates that are ready, as far as there are processors.
start_ready() {
    local ready name longest running spare waiting
    mapfile -t ready < <(list_ready)
    waiting=${#ready[@]}
    longest=$(longest_to_come "${ready[@]}")
    for name in "${ready[@]}"; do
        [ "$free" -gt 0 ] || return 0
        share[$name]=1
        way[$name]=10
        running=$(longest_running)
        [ "$running" -le "$longest" ] || longest=$running
        [ $((chain[$name] * 100)) -lt $((longest * 80)) ] || way[$name]=0
        [ "$(count_working "${way[$name]}")" -le "$slots" ] || return 0
        spare=$((slots - $(count_working 10) - waiting + 1))
        spare=$((spare < 4 ? spare : 4))
        [ "$spare" -le "${share[$name]}" ] || share[$name]=$spare
        [ ! -f "crates/$name/src/main.rt" ] || share[$name]=1
        prove "$name" "${share[$name]}" "${way[$name]}" > "$logs/$name" 2>&1 &
        pids[$name]=$!
        state[$name]=running
        since[$name]=$SECONDS
        free=$((free - 1))
        waiting=$((waiting - 1))
        say "$name begins, in ${share[$name]} processes"
    done
}

# Those above a crate that failed are not tried.
skip_above() {
    local name
    for name in "${names[@]}"; do
        if [ "${state[$name]}" = waiting ] && grep -qx "$1" <<< "${under[$name]}"; then
            state[$name]=skipped
        fi
    done
}

# Says if the verdict on a program rests on another number of functions of C than tests/axioms has.
compare_axioms() {
    local reached listed
    reached=$(sed -nE 's/^logic=proved .* axioms=([0-9]+) .*/\1/p' "$logs/$1")
    listed=$(grep -cw -- "$1" tests/axioms)
    [ -z "$reached" ] || [ "$reached" = "$listed" ] \
        || say "$1 rests on $reached functions of C, and tests/axioms has $listed: run tests/list-axioms.sh"
}

# Waits until a crate has ended, and takes over what came of it.
await_one() {
    local name status
    read -r name status <&"$ended"
    wait "${pids[$name]}"
    unset "pids[$name]"
    put_back "$name"
    free=$((free + 1))
    if [ "$status" -eq 0 ]; then
        state[$name]=proved
        say "$name is proved, in $(in_minutes $((SECONDS - since[$name]))) ($(processor_seconds "$logs/$name.times") processor" \
            "seconds): $(count proved) of ${#names[@]} crates"
        compare_axioms "$name"
        return
    fi
    state[$name]=failed
    skip_above "$name"
    say "$name FAILED, with status $status:"
    sed "s|$rooms/$name/||g" "$logs/$name"
}

# However this ends, each `rt` ends, and the crates have their out/ again.
clean_up() {
    local name
    trap '' INT TERM HUP
    kill "${pids[@]}" "${loop:-}" 2> /dev/null
    wait
    for name in "${names[@]}"; do
        put_back "$name"
    done
    wait
    rm -rf "$rooms" "$logs"
}

tell_outcome() {
    local name failed='' skipped=''
    for name in "${names[@]}"; do
        case ${state[$name]} in
            failed) failed+=" $name" ;;
            skipped) skipped+=" $name" ;;
        esac
    done
    if [ -n "$failed" ]; then
        echo "FAILED:$failed"
        [ -z "$skipped" ] || echo "not tried, as they stand on those:$skipped"
        return 1
    fi
    say_beside "$logs/loops"
    echo "${#names[@]} crates are proved, in $(in_minutes "$SECONDS"). The programs:"
    for name in "${names[@]}"; do
        [ ! -f "crates/$name/src/main.rt" ] || echo "  crates/$name/out/$name"
    done
}

say_kit || exit 1
cores=$(count_cores)
slots=$(count_slots "$memory_of_one")
free=$((slots + 1))
keeps=${KEEP:-}
! compgen -G 'crates/*/out/incremental' > /dev/null || keeps=1
read_crates
collect_under
measure_chains
lock_crates || exit 1
logs=$(mktemp -d) || exit 1
trap clean_up EXIT
trap 'exit 1' INT TERM HUP
for name in "${names[@]}"; do
    # What a run that was killed outright left.
    put_back "$name"
done
mkfifo "$logs/ended" && exec {ended}<> "$logs/ended" || exit 1
measure_beside "$logs/loops" > /dev/null 2>&1 &
loop=$!

SECONDS=0
echo "make: ${#names[@]} crates on $slots of $cores cores ($memory_of_one MiB of free memory for each):" \
    "from nothing about $(minutes_of_make "$slots" "$(measure_pace)") minutes"
start_ready
while [ "$(count running)" -gt 0 ]; do
    await_one
    start_ready
done
tell_outcome
