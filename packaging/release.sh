#!/usr/bin/env bash
# Makes a release out of a clean checkout: runs `make test` and those tests that are no part of it, one after the other,
# makes the package, and writes it, its SHA-256 sums and a text of what passed into out/release. It ends at the first step
# that fails: by its status, by a check that failed, or because it counted none; and then it leaves no files there.
#
# LEAVE_OUT='test hostile' in the environment leaves these steps out, to try the rest without hours. The text then begins
# with the words NOT A RELEASE, and names them. CACHE=FOLDER is that of `make units`.
set -u
cd "$(dirname "$0")/.." || exit 1
unset MAKEFLAGS MAKELEVEL
. tests/machine.sh

tests=(test peers hostile attacks units memory)
steps=("${tests[@]}" deb lintian)
folder=out/release
notes=$folder/RELEASE
begun=$(date -u '+%Y-%m-%d %H:%M')
declare -A counts # of each test that passed, its last line
declare -A took   # of each step that passed, its seconds
declare -A skips  # of each test, how many of its lines say that something was skipped

fail() {
    echo "make release: $*" >&2
    rm -rf "$folder"
    exit 1
}

is_left_out() {
    [[ " ${LEAVE_OUT:-} " == *" $1 "* ]]
}

# Whether the files are those of the commit.
check_checkout() {
    local changed
    changed=$(git status --porcelain) || fail "no checkout of git"
    [ -z "$changed" ] || fail "the checkout is not clean:
$changed"
    [ "$(git rev-parse HEAD)" = "$commit" ] || fail "another commit was checked out meanwhile"
}

# What is missing is said before the hours.
check_tools() {
    local tool
    for tool in rt dpkg-deb; do
        command -v "$tool" > /dev/null || fail "there is no $tool"
    done
    is_left_out lintian || command -v lintian > /dev/null || fail "there is no lintian"
    is_left_out units || command -v debootstrap > /dev/null || fail "there is no debootstrap"
    is_left_out units && is_left_out peers && is_left_out attacks || [ "$(id -u)" -eq 0 ] ||
        fail "make peers, make attacks and make units need root"
}

# ---- the steps

run_test() {
    local step=$1 begin=$SECONDS status
    make --no-print-directory "$step" 2>&1 | tee "$logs/$step"
    status=${PIPESTATUS[0]}
    counts[$step]=$(tail -n 1 "$logs/$step" | grep -xE '[0-9]+ passed, [0-9]+ failed(, [0-9]+ skipped)?')
    took[$step]=$((SECONDS - begin))
    skips[$step]=$(grep -c '^skipped: ' "$logs/$step")
    [ "$status" -eq 0 ] || fail "make $step failed, with status $status"
    [ -n "${counts[$step]}" ] || fail "make $step failed: its last line is no 'N passed, N failed'"
    [[ ${counts[$step]} != "0 passed"* ]] || fail "make $step failed: nothing passed"
    [[ ${counts[$step]} == *" passed, 0 failed"* ]] || fail "make $step failed: ${counts[$step]}"
}

# The package has to be the one that `make units` installed, to the byte.
make_package() {
    local begin=$SECONDS
    make --no-print-directory deb > "$logs/deb" 2>&1 || fail "make deb failed: $(tail -n 1 "$logs/deb")"
    package=$(tail -n 1 "$logs/deb")
    [ -f "$package" ] || fail "make deb failed: there is no package '$package'"
    took[deb]=$((SECONDS - begin))
    is_left_out units || grep -qxF "package: $(sum_of "$package")" "$logs/units" ||
        fail "make deb made another package than the one that make units installed"
}

run_lintian() {
    local begin=$SECONDS
    lintian --display-info --pedantic "$package" > "$logs/lintian" 2>&1 && ! grep -q '^[EWIP]: ' "$logs/lintian" ||
        fail "lintian failed: $(cat "$logs/lintian")"
    took[lintian]=$((SECONDS - begin))
}

run_steps() {
    local step
    for step in "${steps[@]}"; do
        if is_left_out "$step"; then
            echo "make release: $step is left out"
            continue
        fi
        echo "make release: $step begins"
        case $step in
            deb) make_package ;;
            lintian) run_lintian ;;
            *) run_test "$step" ;;
        esac
        echo "make release: $step has passed, in $(in_minutes "${took[$step]}")"
    done
}

# ---- the text

# The SHA-256 sum of a file, and its name without folders.
sum_of() {
    (cd "$(dirname "$1")" && sha256sum "$(basename "$1")")
}

write_head() {
    local step left=
    for step in "${steps[@]}"; do
        ! is_left_out "$step" || left+=" $step"
    done
    [ -z "$left" ] || printf 'NOT A RELEASE: left out were%s\n\n' "$left"
    cat << END_OF_HEAD
rpcbind $version

Commit $commit
Begun on $begun UTC, on $(count_cores) cores of $(sed -n 's/^model name\s*: //p' /proc/cpuinfo | head -n 1)
END_OF_HEAD
    if is_left_out test; then
        echo "Not proved here."
    else
        echo "Proved with $(rt version): kits with this sum of the logic prove the same."
        echo "Crates that this machine had proved before, to the byte: $(grep -c '^rt: .* is kept: ' "$logs/test")."
    fi
}

write_steps() {
    local step
    printf '\nWhat passed:\n\n'
    for step in "${tests[@]}"; do
        is_left_out "$step" && continue
        printf '    make %-8s %s, in %s\n' "$step" "${counts[$step]}" "$(in_minutes "${took[$step]}")"
        [ "${skips[$step]}" = 0 ] || grep '^skipped: ' "$logs/$step" | sort -u | sed 's/^/                  /'
    done
    is_left_out lintian || printf '    lintian       says nothing that packaging/deb/lintian-overrides has no reason for\n'
}

write_sums() {
    local program
    printf '\nSHA-256 sums of the package, made in %s, and of the programs in it:\n\n' "$(in_minutes "${took[deb]}")"
    sum_of "$package" | sed 's/^/    /'
    for program in rpcbind rpcinfo; do
        sum_of "crates/$program/out/$program" | sed 's/^/    /'
    done
    is_left_out units || printf '\nThe package is the one that make units installed, to the byte.\n'
}

write_release() {
    mkdir -p "$folder"
    cp "$package" "$folder/" || fail "the package can't be written"
    {
        write_head
        write_steps
        write_sums
        printf '\nWhat is new:\n\n'
        packaging/changelog.sh notes
    } > "$notes"
    (cd "$folder" && sha256sum -- *.deb "$(basename "$notes")" > SHA256SUMS)
}

version=$(packaging/changelog.sh version) || exit 1
commit=$(git rev-parse HEAD) || exit 1
! is_left_out deb || fail "without deb there is nothing to release"
for step in ${LEAVE_OUT:-}; do
    [[ " ${steps[*]} " == *" $step "* ]] || fail "there is no step '$step' to leave out: ${steps[*]}"
done
check_checkout
check_tools
rm -rf "$folder"
logs=$(mktemp -d) || exit 1
trap 'rm -rf "$logs"' EXIT
trap 'exit 1' INT TERM HUP
run_steps
check_checkout
write_release
cat "$notes"
