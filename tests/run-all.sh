#!/usr/bin/env bash
# The whole test: the tests without proof, `rt ci` (every proof from nothing, the edits of must-fail/, and each program), the
# edits of refused/ over what that built, the rows, and two hosts. The last line is 'N passed, N failed' over all; the status is 1 if one failed. With
# --anew, nothing that this machine passed before is kept. With --quick nothing is proved: the rows and two hosts run
# programs that were built without proof, beside the tests.
set -u
cd "$(dirname "$0")/.." || exit 1
. tests/machine.sh
. tests/beside.sh

memory_of_one=3000 # in MiB, for a check

work=$(mktemp -d) || exit 1
trap 'end_beside; put_back_libraries; rm -rf "$work"' EXIT # ends the fixed loop too
trap 'exit 1' INT TERM HUP
passed=0
failed=0

# Runs a command whose last line is its counts, and adds them.
add() {
    local status before after
    times > "$work/before"
    "$@" 2>&1 | tee "$work/log" | show_progress
    status=${PIPESTATUS[0]}
    times > "$work/after"
    add_counts "$*" "$status" "$work/log"
    before=$(processor_seconds "$work/before") after=$(processor_seconds "$work/after")
    echo "$* has taken $((after - before)) processor seconds"
}

# A command that prints no counts is a failure, and so is one that fails and counts none.
add_counts() {
    local counts p=0 f=1
    if counts=$(read_counts "$3"); then
        p=${counts% *} f=${counts#* }
        [ "$2" -eq 0 ] || [ "$f" -gt 0 ] || f=1
    else
        echo "failed: '$1' printed no counts"
    fi
    passed=$((passed + p))
    failed=$((failed + f))
}

# Passes lines on. After one with which `rt ci` ends the proof of a crate, or begins its edits, it says how far it is.
show_progress() {
    local line proved=0 tried=0
    while IFS= read -r line || [ -n "$line" ]; do
        printf '%s\n' "$line"
        case $line in
            'rt: '*' proved' | 'rt: '*' NOT PROVED'* | 'rt: '*' is kept: '*) proved=$((proved + 1)) ;;
            'rt: '*': trying its must-fail edits'*) tried=$((tried + 1)) ;;
            *) continue ;;
        esac
        echo "make test: after $(in_minutes "$SECONDS") $proved of $crates crates are proved or failed," \
            "and the edits of $tried of $with_edits have begun"
    done
}

# Moves away the libraries that `make` and checks left here, which `rt ci` would put back in the place of those that it builds,
# over which the edits are tried; and what an earlier `rt ci` left, which nothing else takes (they have no sum).
set_aside_libraries() {
    local crate
    for crate in $(list_crates); do
        if [ -d .git ] && { [ -f "crates/$crate/out/rlib/stamp" ] || [ -f "crates/$crate/out/rlib/$crate.rlib.sum" ]; }; then
            mkdir -p "$aside/$crate" && mv "crates/$crate/out/rlib" "$aside/$crate"
        else
            rm -rf "crates/$crate/out/rlib"
        fi
    done
}

put_back_libraries() {
    local library crate
    for library in "$aside"/*/rlib; do
        crate=$(basename "$(dirname "$library")")
        if [ -d "$library" ] && [ -d "crates/$crate" ]; then
            rm -rf "crates/$crate/out/rlib"
            mkdir -p "crates/$crate/out" && mv "$library" "crates/$crate/out"
        fi
    done
    rm -rf "$aside"
}

# ---- without proof

# Runs a command in the background, whose seconds go on from those of here, and keeps what it says and its status in files.
begin() {
    local name=$1
    shift
    (
        trap 'kill "${run:-}" 2> /dev/null; exec > /dev/null; wait; exit 1' TERM
        exec > >(tee "$work/$name.log")
        said=$!
        env SECONDS="$SECONDS" "$@" 2>&1 &
        run=$!
        wait "$run"
        status=$?
        exec >&-
        wait "$said"
        echo "$status" > "$work/$name.status"
    ) &
}

# Adds the counts of a command that has ended.
end() {
    add_counts "$1" "$(cat "$work/$1.status")" "$work/$1.log"
}

# Waits until these programs are built, or the tests are over.
await_built() {
    local name
    for name in "$@"; do
        until [ -x "$work/$name" ] || ! kill -0 "$tests" 2> /dev/null; do sleep 0.2; done
    done
}

# The tests, and beside them, once the programs that they run are built, the rows and two hosts.
run_quick() {
    local tests
    make_slots "$work/slots" "$cores" || exit 1
    begin tests tests/run-tests.sh --programs "$work"
    tests=$!
    has_namespaces || wait "$tests" # as they need the same ports
    await_built rpcinfo
    begin rows-of-rpcinfo tests/run-rows.sh --of rpcinfo "$work/rpcbind" "$work/rpcinfo"
    await_built rpcbind
    begin rows tests/run-rows.sh --of others "$work/rpcbind" "$work/rpcinfo"
    begin hosts tests/two-hosts.sh "$work/rpcbind" "$work/rpcinfo"
    wait
    end tests
    end rows-of-rpcinfo
    end rows
    end hosts
}

aside=$PWD/.git/libraries
crates=$(list_crates | wc -l)
with_edits=$(find crates/*/must-fail -name '*.edit' -printf '%h\n' | sort -u | wc -l)
cores=$(count_cores)
say_kit
if [ "${1:-}" = --quick ]; then
    echo "make quick: each test and each row on $cores cores, and no proof"
    run_quick
else
    echo "make test: $crates crates on $cores cores: from nothing about $(minutes_of_test "$cores" "$(measure_pace)") minutes;" \
        "what this machine passed before is not proved again"
    measure_beside "$work/loops" > /dev/null 2>&1 &
    put_back_libraries # that a run which was killed outright left
    slots=$(count_slots "$memory_of_one")
    add tests/run-tests.sh
    set_aside_libraries
    words=("$@")
    # Kits that keep nothing prove all anew, and know no such word.
    if [ "${1:-}" = --anew ] && ! rt help 2>&1 | grep -q -e --anew; then
        shift
    fi
    # With a number given, `rt` has each check work on one core: on several, each loads all that the crate stands on.
    add env RT_JOBS="$slots" rt ci "$@"
    add env RT_JOBS="$slots" tests/try-edits.py "${words[@]}"
    put_back_libraries
    add tests/run-rows.sh
    add tests/two-hosts.sh
    say_beside "$work/loops"
fi
echo "$passed passed, $failed failed"
[ "$failed" -eq 0 ]
