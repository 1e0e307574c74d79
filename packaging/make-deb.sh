#!/usr/bin/env bash
# Makes the Debian package of the programs that `make` built: rpcbind-proved_VERSION_ARCHITECTURE.deb, in the folder of its
# word, or in this one. Needs dpkg-deb, and no root. Its files are those of `make install`, where Debian has them, with what
# stands in packaging/deb; the version is the newest of CHANGELOG, which both programs must say. Equal programs give equal
# packages, whenever and wherever they are made: each file has the date of the version, or that of SOURCE_DATE_EPOCH.
set -uo pipefail
umask 022
cd "$(dirname "$0")/.." || exit 1

name=rpcbind-proved
deb=packaging/deb

fail() {
    echo "make deb: $*" >&2
    exit 1
}

command -v dpkg-deb > /dev/null || fail "there is no dpkg-deb"
version=$(packaging/changelog.sh version) || exit 1
for program in rpcbind rpcinfo; do
    built=crates/$program/out/$program
    [ -x "$built" ] || fail "no program $built: run 'make' first"
    said=$("$built" --version)
    [ "$said" = "$program $version" ] || fail "$built says '$said', and the newest version of CHANGELOG is $version"
done
architecture=$(dpkg --print-architecture) || exit 1
export SOURCE_DATE_EPOCH=${SOURCE_DATE_EPOCH:-$(packaging/changelog.sh seconds)}
folder=${1:-.}
work=$(mktemp -d) || exit 1
trap 'rm -rf "$work"' EXIT
tree=$work/tree
documents=$tree/usr/share/doc/$name

# ---- its files

# The man pages and the changelog are packed, and the licence stands in the file copyright, as Debian has it.
lay_out() {
    env -u MAKEFLAGS -u MAKELEVEL make --no-print-directory install PREFIX=/usr NAMES=proved DESTDIR="$tree" || return 1
    find "$tree/usr/share/man" -type f -exec gzip -9n {} + || return 1
    rm "$documents/LICENSE" "$documents/CHANGELOG"
    packaging/changelog.sh debian $name "$(sed -n 's/^Maintainer: //p' $deb/control)" | gzip -9n > "$documents/changelog.gz"
    install -m 644 $deb/copyright "$documents/copyright"
    install -D -m 644 packaging/$name.default "$tree/etc/default/$name"
    install -D -m 644 packaging/$name.apparmor "$tree/etc/apparmor.d/usr.sbin.$name"
    install -D -m 755 packaging/$name.carry "$tree/usr/libexec/$name/carry"
    # the package rpcbind, in whose place this one is, has these; quotarpc.service starts if there is /sbin/rpcbind
    mkdir -p "$tree/usr/bin" "$tree/sbin"
    ln -s /usr/sbin/rpcbind-proved "$tree/sbin/rpcbind"
    ln -s rpcbind-proved.8.gz "$tree/usr/share/man/man8/rpcbind.8.gz"
    ln -s rpcinfo-proved "$tree/usr/sbin/rpcinfo"
    ln -s ../sbin/rpcinfo-proved "$tree/usr/bin/rpcinfo"
    ln -s rpcinfo-proved.8.gz "$tree/usr/share/man/man8/rpcinfo.8.gz"
    install -D -m 644 $deb/lintian-overrides "$tree/usr/share/lintian/overrides/$name"
}

# ---- what dpkg is told of it

# The packages of the libraries that the programs load, of the C library from the version of the newest symbol on.
list_libraries() {
    local library newest packages
    newest=$(grep -aohE 'GLIBC_2\.[0-9]+' "$tree"/usr/sbin/* | sort -uV | tail -n 1)
    packages="libc6 (>= ${newest#GLIBC_})"
    for library in $(grep -aohE '\blib[a-z0-9_+-]+\.so\.[0-9]+' "$tree"/usr/sbin/* | LC_ALL=C sort -u); do
        case $library in
            libc.so.6 | libm.so.6) ;;
            libgcc_s.so.1) packages+=", libgcc-s1" ;;
            *) fail "of which package is the library $library?" ;;
        esac
    done
    echo "$packages"
}

# In units of 1024 bytes: that of each file rounded up, and 1 for each folder.
installed_size() {
    find "$tree" -mindepth 1 -not -path "$tree/DEBIAN*" -printf '%y %s\n' |
        awk '{ size += $1 == "f" ? int(($2 + 1023) / 1024) : 1 } END { print size }'
}

describe() {
    local script size libraries
    size=$(installed_size)
    libraries=$(list_libraries) || exit 1
    mkdir "$tree/DEBIAN"
    sed "s|@VERSION@|$version|; s|@ARCHITECTURE@|$architecture|; s|@SIZE@|$size|; s|@LIBRARIES@|$libraries|" \
        $deb/control > "$tree/DEBIAN/control"
    cp $deb/conffiles $deb/triggers "$tree/DEBIAN/"
    (cd "$tree" && find usr -type f -print0 | LC_ALL=C sort -z | xargs -0 md5sum) > "$tree/DEBIAN/md5sums"
    for script in postinst prerm postrm; do
        install -m 755 "$deb/$script" "$tree/DEBIAN/$script"
    done
}

lay_out > "$work/said" 2>&1 || fail "$(tail -n 1 "$work/said")"
describe
find "$tree" -exec touch --no-dereference --date="@$SOURCE_DATE_EPOCH" {} +
mkdir -p "$folder"
file=$folder/${name}_${version}_$architecture.deb
dpkg-deb --root-owner-group -Zxz -z6 --threads-max=1 --build "$tree" "$file" > "$work/said" 2>&1 ||
    fail "$(tail -n 1 "$work/said")"
echo "$file"
