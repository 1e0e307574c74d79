# Sourced by run-rows.sh: the package of `make deb`, made twice, its changelog, and what `make release` makes and refuses.
# That is tried in a checkout of its own, in which `make`, `rt` and lintian are stand-ins that prove and test nothing:
# what they say is written here, and FAULT in the environment has one of them fail.

# ---- the package

# What a package is made of, in another folder, later and under another mask.
copy_of_sources() {
    local name
    mkdir -p "$1"
    cp -r Makefile LICENSE CHANGELOG ./*.md packaging man docs "$1/" || return 1
    for name in rpcbind rpcinfo; do
        mkdir -p "$1/crates/$name/out"
        cp "crates/$name/out/$name" "$1/crates/$name/out/" || return 1
    done
}

# Two packages of the same programs are the same bytes, and have the newest version of CHANGELOG.
run_package_twice() {
    local one other
    if ! command -v dpkg-deb > /dev/null; then
        echo "skipped: there is no dpkg-deb"
        return
    fi
    one=$(packaging/make-deb.sh "$work/packages") && copy_of_sources "$work/elsewhere" &&
        other=$(cd "$work/elsewhere" && umask 077 && packaging/make-deb.sh) && cmp "$one" "$work/elsewhere/$other"
    judge $? "two packages of the same programs differ"
    [ "$(dpkg-deb --field "$one" Version)" = "$version" ] && [[ $one == */rpcbind-proved_${version}_*.deb ]]
    judge $? "the package is not of version $version"
}

# Programs of another version than CHANGELOG's are refused.
run_package_of_another_version() {
    copy_of_sources "$work/other" && sed -i "0,/^$version /s//0.0.1 /" "$work/other/CHANGELOG"
    (cd "$work/other" && packaging/make-deb.sh > "$work/stdout" 2> "$work/stderr")
    [ $? -eq 1 ] && grep -qx "make deb: .* says 'rpcbind $version', and the newest version of CHANGELOG is 0.0.1" "$work/stderr"
    judge $? "a package of programs of another version is refused"
}

# CHANGELOG in Debian's form, by deb-changelog(5): its days of the week are those of the calendar.
run_changelog() {
    mkdir -p "$work/history/packaging"
    cp packaging/changelog.sh "$work/history/packaging/"
    cat > "$work/history/CHANGELOG" << 'GIVEN'
0.9.1 (2026-02-03)
  What comes:
  * Thing one.
  * Thing two is longer than a line of Debian's form has room for, which is of seventy
    eight columns.

  What goes:
  * Thing three.

0.9.0 (2025-12-31)
  All.
GIVEN
    cat > "$work/wanted" << 'WANTED'
p (0.9.1) unstable; urgency=medium

  [ What comes ]
  * Thing one.
  * Thing two is longer than a line of Debian's form has room for, which is of
    seventy eight columns.
  [ What goes ]
  * Thing three.

 -- n <n@localhost>  Tue, 03 Feb 2026 12:00:00 +0000

p (0.9.0) unstable; urgency=medium

  * All.

 -- n <n@localhost>  Wed, 31 Dec 2025 12:00:00 +0000
WANTED
    "$work/history/packaging/changelog.sh" debian p 'n <n@localhost>' > "$work/stdout"
    same "$work/wanted" "$work/stdout" "Debian's form"
    judge $? "CHANGELOG in Debian's form"
    [ "$("$work/history/packaging/changelog.sh" version)" = 0.9.1 ] && sed -i '1s/.*/Unreleased/' "$work/history/CHANGELOG" &&
        ! "$work/history/packaging/changelog.sh" version > "$work/stdout" 2> "$work/stderr" && [ ! -s "$work/stdout" ] &&
        grep -q "a heading is 'Unreleased'" "$work/stderr"
    judge $? "a newest version of CHANGELOG without number and date is refused"
}

# ---- the release

write_stand_ins() {
    mkdir -p "$work/bin"
    cat > "$work/bin/make" << 'STAND_IN'
#!/usr/bin/env bash
case "${FAULT:-}" in
    "$2 status") echo "4 passed, 0 failed" && exit 2 ;;
    "$2 failed") echo "4 passed, 1 failed" && exit 0 ;;
    "$2 nothing") echo "0 passed, 0 failed" && exit 0 ;;
    "$2 uncounted") echo "skipped: this wants root" && exit 0 ;;
    "$2 changes") echo change >> CHANGELOG ;;
esac
bytes=package
[ "${FAULT:-}" != "$2 other" ] || bytes=other
mkdir -p out
case $2 in
    deb) echo "$bytes" > out/p.deb && echo "out/p.deb" ;;
    units) echo "package: $(echo "$bytes" | sha256sum | sed 's/-$/p.deb/')" && echo "40 passed, 0 failed" ;;
    peers) echo "skipped: there is no cc" && echo "30 passed, 0 failed, 1 skipped" ;;
    test) echo "rt: rb_xdr is kept: it passed" && echo "900 passed, 0 failed" ;;
    *) echo "7 passed, 0 failed" ;;
esac
STAND_IN
    printf '#!/bin/sh\necho "some-kit logic 0123456789abcdef"\n' > "$work/bin/rt"
    printf '#!/bin/sh\necho 0\n' > "$work/bin/id"
    printf '#!/bin/sh\n' | tee "$work/bin/debootstrap" "$work/bin/dpkg-deb" > "$work/bin/unshare"
    printf '#!/bin/sh\n[ "$FAULT" != lintian ] || echo "I: p: a-tag"\n' > "$work/bin/lintian"
    chmod +x "$work/bin/"*
}

write_checkout() {
    local name
    mkdir -p "$work/checkout/tests" "$work/checkout/packaging"
    cp packaging/release.sh packaging/changelog.sh "$work/checkout/packaging/"
    cp tests/machine.sh "$work/checkout/tests/"
    cp CHANGELOG .gitignore "$work/checkout/"
    for name in rpcbind rpcinfo; do
        mkdir -p "$work/checkout/crates/$name/out"
        echo "$name" > "$work/checkout/crates/$name/out/$name"
    done
    git -C "$work/checkout" init --quiet && git -C "$work/checkout" add . &&
        git -C "$work/checkout" -c user.name=n -c user.email=n@localhost commit --quiet --message=first
}

# Makes a release there, with these words in the environment.
try_release() {
    (cd "$work/checkout" && env PATH="$work/bin:$PATH" "$@" packaging/release.sh) > "$work/stdout" 2> "$work/stderr"
    got=$?
}

# It has failed with this message, and has left no files.
is_refused() {
    [ "$got" -eq 1 ] && [ ! -e "$work/checkout/out/release" ] && grep -qF "make release: $1" "$work/stderr" && return
    cat "$work/stderr"
    return 1
}

has_lines() {
    local line
    for line in "$@"; do
        grep -qF -- "$line" "$work/checkout/out/release/RELEASE" || { echo "no line with '$line'"; return 1; }
    done
}

run_whole_release() {
    try_release
    [ "$got" -eq 0 ] && (cd "$work/checkout/out/release" && sha256sum --quiet --check SHA256SUMS) &&
        [ "$(grep -c . "$work/checkout/out/release/SHA256SUMS")" = 2 ] && [ -f "$work/checkout/out/release/p.deb" ] &&
        has_lines "rpcbind $version" "Commit $(git -C "$work/checkout" rev-parse HEAD)" \
            'Proved with some-kit logic 0123456789abcdef' 'Crates that this machine had proved before, to the byte: 1.' \
            'make test     900 passed, 0 failed, in ' 'make peers    30 passed, 0 failed, 1 skipped, in ' \
            'skipped: there is no cc' 'make hostile  7 passed, 0 failed, in ' 'make units    40 passed, 0 failed, in ' \
            'make memory   7 passed, 0 failed, in ' "$(echo package | sha256sum | cut -d ' ' -f 1)  p.deb" \
            "$(echo rpcinfo | sha256sum | cut -d ' ' -f 1)  rpcinfo" &&
        ! grep -q 'NOT A RELEASE' "$work/checkout/out/release/RELEASE"
    judge $? "a release of which all passes"
}

run_release_in_part() {
    try_release LEAVE_OUT='test units lintian'
    [ "$got" -eq 0 ] && has_lines 'NOT A RELEASE: left out were test units lintian' 'Not proved here.' \
        'make hostile  7 passed, 0 failed, in ' && ! grep -q 'make test' "$work/checkout/out/release/RELEASE"
    judge $? "a release with steps left out says so"
    printf '#!/bin/sh\necho 1000\n' > "$work/bin/id"
    try_release
    is_refused "make peers, make attacks and make units need root"
    judge $? "a release by a user who can't run its tests is refused at once"
    printf '#!/bin/sh\necho 0\n' > "$work/bin/id"
    try_release LEAVE_OUT=tests
    is_refused "there is no step 'tests' to leave out"
    judge $? "a step that is none is refused"
}

# Releases of which one of these steps fails.
try_failing_steps() {
    local step
    for step in "$@"; do
        try_release FAULT="$step status"
        is_refused "make $step failed, with status 2"
        judge $? "a release whose $step has a status"
        try_release FAULT="$step failed"
        is_refused "make $step failed: 4 passed, 1 failed"
        judge $? "a release whose $step has a check that failed"
        try_release FAULT="$step nothing"
        is_refused "make $step failed: nothing passed"
        judge $? "a release whose $step has no checks"
        try_release FAULT="$step uncounted"
        is_refused "make $step failed: its last line is no"
        judge $? "a release whose $step was skipped"
    done
}

run_releases_of_other_faults() {
    try_release FAULT='deb status'
    is_refused "make deb failed: 4 passed, 0 failed"
    judge $? "a release without a package"
    try_release FAULT='units other'
    is_refused "make deb made another package than the one that make units installed"
    judge $? "a release of another package than was tried"
    try_release FAULT=lintian
    is_refused "lintian failed: I: p: a-tag"
    judge $? "a release of which lintian says something"
    try_release FAULT='memory changes'
    is_refused "the checkout is not clean"
    judge $? "a release whose checkout changed meanwhile"
    try_release
    is_refused "the checkout is not clean"
    judge $? "a release of a checkout that is not clean"
}

# Makes what a release is tried in. The status is 1 if it can't be tried.
prepare_releases() {
    if ! command -v git > /dev/null; then
        echo "skipped: there is no git"
        return 1
    fi
    write_stand_ins
    write_checkout || { judge 1 "no checkout can be made"; return 1; }
}

run_releases() {
    prepare_releases || return
    run_whole_release
    run_release_in_part
    run_releases_of_other_faults
}

# Each step can fail.
run_releases_whose_first_steps_fail() {
    prepare_releases && try_failing_steps test peers hostile
}

run_releases_whose_last_steps_fail() {
    prepare_releases && try_failing_steps attacks units memory
}

run_packages() {
    run_changelog
    if [ -z "$has_checks" ]; then
        run_package_twice
        run_package_of_another_version
    fi
}

portless+=(run_releases_whose_first_steps_fail run_releases_whose_last_steps_fail run_releases run_packages)
