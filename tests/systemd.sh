#!/usr/bin/env bash
# Boots a Debian, by its systemd as process 1 of namespaces of its own, where apt puts the package of `make deb` in the place
# of Debian's rpcbind, and Debian's in its place: tests/units/checks.py has the checks. In the first boot services are
# registered, and go on while ours is restarted, killed and upgraded and clients come. Then the package is installed in that
# Debian while it doesn't run, and it boots a few times with services of inetd, and once with /var mounted as NFS is.
# Nothing of the machine is touched, and no network.
#
# The Debian is made by debootstrap, of the machine's own release and from the mirror of its package sources, in a folder
# under /var/tmp that goes at the end. With CACHE=FOLDER in the environment it is kept there for the next time. BOOTS=N has
# it boot N times with inetd (3). A word runs one part alone: switch, or boots. Needs root, and says what is missing. Each
# check is a line 'ok' or 'FAILED'; a line 'package: ' has the SHA-256 sum of the package; the last line is 'N passed, N
# failed'; the status is 1 if one failed.
set -u
cd "$(dirname "$0")/.." || exit 1

longest=900 # how many seconds a boot takes at most, with its checks
boots=${BOOTS:-3}
[ $# -gt 0 ] && parts=("$@") || parts=(switch boots)
# netbase has the /etc/services in which a libtirpc looks for a port
packages=systemd,systemd-sysv,rpcbind,nfs-common,netbase,nfs-kernel-server,nfs-ganesha-vfs,libnfs-utils
packages+=,openbsd-inetd,rusersd,rstatd,rwalld,quota,apparmor

skip() {
    echo "skipped: $*"
    exit 0
}

fail() {
    echo "make units: $*" >&2
    exit 1
}

[ -x crates/rpcbind/out/rpcbind ] && [ -x crates/rpcinfo/out/rpcinfo ] || fail "no built programs: run 'make' first"
[ "$(id -u)" -eq 0 ] || skip "namespaces of its own want root"
for tool in debootstrap apt-get dpkg-deb unshare pivot_root chroot setpriv python3; do
    command -v "$tool" > /dev/null || skip "there is no $tool"
done
unshare --pid --fork --mount --net --uts --ipc --cgroup true 2> /dev/null || skip "namespaces are not allowed here"

work=$(mktemp -d /var/tmp/rpcbind-units.XXXXXX) || exit 1
tree=$work/tree
packages_made=$work/packages
cgroup=

# Ends what still runs in the control group, which is nothing if all went well.
finish() {
    if [ -n "$cgroup" ]; then
        echo 1 2> /dev/null > "$cgroup/cgroup.kill"
        sleep 0.2
        find "$cgroup" -depth -type d -exec rmdir {} + 2> /dev/null
    fi
    rm -rf --one-file-system "$work"
}
trap finish EXIT
trap 'exit 1' INT TERM HUP

# ---- the Debian

# Where the packages of this machine's release come from.
mirror_of() {
    apt-get indextargets --format '$(RELEASE) $(COMPONENT) $(REPO_URI)' 'Created-By: Packages' |
        awk -v release="$1" '$1 == release && $2 == "main" { print $3; exit }'
}

# Has one in the folder `kept`, with the packages that it was made of.
make_debian() {
    local release mirror
    release=$(. /etc/os-release && echo "${VERSION_CODENAME:-}")
    mirror=$(mirror_of "$release")
    [ -n "$mirror" ] || skip "this machine has no package sources of Debian"
    kept=${CACHE:-$work}/$release
    if [ ! -d "$kept" ] || [ "$(cat "$kept/packages" 2> /dev/null)" != "$packages" ]; then
        echo "making a Debian $release from $mirror, in a few minutes .."
        mkdir -p "${CACHE:-$work}"
        rm -rf "$kept.new"
        debootstrap --variant=minbase --include="$packages" "$release" "$kept.new" "$mirror" > "$work/made" 2>&1 ||
            fail "debootstrap: $(grep -v '^I:' "$work/made" | tail -n 1)"
        echo "$packages" > "$kept.new/packages"
        rm -rf --one-file-system "$kept"
        mv "$kept.new" "$kept"
    fi
}

# A package of a later version, which differs in that alone, and wants what is of its version in that version.
make_next() {
    local version
    rm -rf "$work/next"
    dpkg-deb --raw-extract "$1" "$work/next" && version=$(dpkg-deb --field "$1" Version) &&
        sed -i "s/^Version: .*/&+next/; s/nfs-common (= $version)/nfs-common (= $version+next)/" "$work/next/DEBIAN/control" &&
        dpkg-deb --root-owner-group --build "$work/next" "$2" > "$work/made" 2>&1 ||
        fail "no package of a later version: $(tail -n 1 "$work/made")"
}

# The package of `make deb`, and a later one.
make_packages() {
    local package
    package=$(packaging/make-deb.sh "$packages_made") || fail "no package"
    (cd "$packages_made" && sha256sum "$(basename "$package")") | sed 's/^/package: /'
    mkdir "$packages_made/next"
    make_next "$package" "$packages_made/next"
}

# The packages of the Debian as a repository, with later ones of nfs-common and of the rpcbind that must stay away.
make_repository() {
    local repository=$1 package
    mkdir "$repository"
    for package in rpcbind nfs-common nfs-kernel-server openbsd-inetd rstatd libtirpc3; do
        cp "$kept"/var/cache/apt/archives/${package}_*.deb "$repository/" || fail "no package $package in the Debian"
    done
    mkdir "$repository/next"
    for package in rpcbind nfs-common nfs-kernel-server; do
        make_next "$repository"/${package}_*.deb "$repository/next"
    done
    for package in "$repository"/*.deb "$repository"/next/*.deb; do
        dpkg-deb --field "$package"
        echo "Filename: ./${package#"$repository/"}"
        stat --format='Size: %s' "$package"
        echo "SHA256: $(sha256sum "$package" | cut -d ' ' -f 1)"
        echo
    done > "$repository/Packages"
    echo "deb [trusted=yes] file:/checks/repository ./" > "$tree/etc/apt/sources.list"
}

# A Debian as it was made, with the checks.
prepare() {
    local unit
    rm -rf --one-file-system "$tree"
    cp -a --reflink=auto "$kept" "$tree" || fail "the Debian can't be copied"
    mkdir "$tree/checks"
    cp tests/units/*.py docs/MIGRATING.md "$tree/checks/"
    cp "$tree/usr/sbin/rpcinfo" "$tree/checks/rpcinfo"
    cp -r "$packages_made" "$tree/checks/packages"
    make_repository "$tree/checks/repository"
    : > "$tree/etc/machine-id"
    # timers that would ask for the network, and servers of NFS: that of the kernel, and one that the checks start by hand
    for unit in apt-daily.timer apt-daily-upgrade.timer fstrim.timer e2scrub_all.timer \
        nfs-server.service nfs-mountd.service nfsdcld.service \
        nfs-ganesha.service nfs-ganesha-lock.service nfs-ganesha-config.service; do
        ln -sf /dev/null "$tree/etc/systemd/system/$unit"
    done
    # a service of another user, tied to rpcbind as ypserv is
    cat > "$tree/etc/systemd/system/requires-rpcbind.service" << 'END'
[Unit]
Requires=rpcbind.service
After=rpcbind.service
StartLimitIntervalSec=0
[Service]
User=nobody
ExecStart=/usr/bin/python3 -B /checks/registers.py 200001
END
    cat > "$tree/etc/systemd/system/checks.service" << 'END'
[Unit]
After=multi-user.target
[Service]
Type=oneshot
ExecStart=/bin/sh -c 'exec python3 -B /checks/checks.py > /checks/output 2>&1'
ExecStopPost=/bin/systemctl --no-block exit
END
    mkdir -p "$tree/etc/systemd/system/default.target.wants"
    ln -s ../checks.service "$tree/etc/systemd/system/default.target.wants/"
}

# A folder as /var far away: what mounts NFS binds it in place of asking a server. By _netdev it stays a mount of the
# network for systemd. nfs-client.target has a cycle of its own with such a /var, by which systemd drops what it likes.
prepare_far_var() {
    cp -a "$tree/var" "$tree/far"
    cat > "$tree/usr/sbin/mount.nfs" << 'END'
#!/bin/sh
exec mount -o bind,_netdev /far /var
END
    cat > "$tree/etc/systemd/system/var.mount" << 'END'
[Mount]
What=192.0.2.9:/var
Where=/var
Type=nfs
END
    rm -f "$tree"/etc/systemd/system/*.wants/nfs-client.target
    mkdir -p "$tree/etc/systemd/system/remote-fs.target.wants"
    ln -s ../var.mount "$tree/etc/systemd/system/remote-fs.target.wants/"
}

# ---- the boots

# A control group of their own: systemd as process 1 takes the one that it finds itself in for all there is.
make_cgroup() {
    local top path
    top=$(awk '$3 == "cgroup2" { print $2; exit }' /proc/mounts)
    path=$(sed -n 's/^0:://p' /proc/self/cgroup)
    [ -n "$top" ] || skip "there are no control groups of version 2"
    cgroup=$top/${path#/}/rpcbind-units-$$
    mkdir "$cgroup" || skip "no control group can be made"
}

# Boots, with the checks of this name, and shows what they wrote.
boot() {
    echo "$1" > "$tree/checks/name"
    rm -f "$tree/checks/output"
    (
        echo "$BASHPID" > "$cgroup/cgroup.procs" || exit 1
        exec timeout --signal=KILL "$longest" unshare --pid --fork --kill-child --mount --propagation private \
            --net --uts --ipc --cgroup tests/units/boot.sh "$tree" > "$work/console" 2>&1 < /dev/null
    ) &
    wait $!
    if ! grep -q '^end of the checks$' "$tree/checks/output" 2> /dev/null; then
        cat "$work/console" "$tree/checks/output" 2> /dev/null
        journalctl --directory="$tree/var/log/journal" --no-pager --lines=30 2> /dev/null
        fail "the checks '$1' did not come to their end"
    fi
    sed '/^end of the checks$/d' "$tree/checks/output" | tee -a "$work/output"
}

# A check where no systemd runs, as in an image that is being made.
check_in_chroot() {
    local name=$1
    shift
    if "$@" > "$work/made" 2>&1; then
        echo "ok      $name"
    else
        echo "FAILED  $name"
        sed 's/^/            /' "$work/made"
    fi | tee -a "$work/output"
}

installs_in_chroot() {
    chroot "$tree" apt-get update && chroot "$tree" sh -c 'apt-get install --yes /checks/packages/rpcbind-proved_*.deb' &&
        [ "$(readlink "$tree/sbin/rpcbind")" = /usr/sbin/rpcbind-proved ] &&
        [ "$(readlink "$tree/etc/systemd/system/rpcbind.socket")" = /lib/systemd/system/rpcbind-proved.socket ]
}

gives_way_in_chroot() {
    chroot "$tree" apt-get install --yes rpcbind && chroot "$tree" apt-get purge --yes rpcbind-proved &&
        [ ! -e "$tree/usr/sbin/rpcbind-proved" ] && [ -x "$tree/sbin/rpcbind" ] &&
        [ ! -e "$tree/etc/systemd/system/rpcbind.socket" ]
}

takes_profile() {
    chroot "$tree" apparmor_parser --skip-kernel-load --skip-cache /etc/apparmor.d/usr.sbin.rpcbind-proved
}

# The parts: each begins with a Debian as it was made.
run_switch() {
    prepare
    boot switch
}

run_boots() {
    prepare
    check_in_chroot "it is installed where no systemd runs" installs_in_chroot
    check_in_chroot "apparmor_parser takes its profile" takes_profile
    for _ in $(seq "$boots"); do boot again; done
    prepare_far_var
    boot far
    check_in_chroot "Debian's takes its place where no systemd runs" gives_way_in_chroot
}

make_cgroup
make_debian
make_packages
for part in "${parts[@]}"; do "run_$part"; done
passed=$(grep -c '^ok ' "$work/output")
failed=$(grep -c '^FAILED ' "$work/output")
echo "$passed passed, $failed failed"
[ "$failed" -eq 0 ]
