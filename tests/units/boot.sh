#!/usr/bin/env bash
# Process 1 of namespaces: makes the folder of its word the root, with file systems of the kernel as a container has them,
# and becomes the systemd there. What would reach the machine is taken away first: what /proc/sys sets, and the rights to
# set its clock and to load modules.
set -u
tree=$1

mount --bind "$tree" "$tree" || exit 1
cd "$tree" || exit 1
mount -t proc proc proc || exit 1
for path in proc/sys proc/sysrq-trigger proc/kcore; do
    [ ! -e "$path" ] || { mount --bind "$path" "$path" && mount -o remount,bind,ro "$path"; } || exit 1
done
mount -t sysfs -o ro sysfs sys || exit 1
mount -t cgroup2 cgroup2 sys/fs/cgroup || exit 1
mount -t tmpfs -o mode=755 tmpfs run || exit 1
mount -t tmpfs tmpfs tmp || exit 1
mount -t tmpfs -o mode=755 tmpfs dev || exit 1
for device in null zero full random urandom tty; do
    touch "dev/$device"
    mount --bind "/dev/$device" "dev/$device" || exit 1
done
mkdir dev/pts dev/shm
mount -t devpts -o newinstance,ptmxmode=666 devpts dev/pts || exit 1
mount -t tmpfs tmpfs dev/shm || exit 1
ln -s pts/ptmx dev/ptmx
ln -s /proc/self/fd dev/fd
hostname box
pivot_root . mnt || exit 1
umount -l /mnt
exec env -i container=other TERM=dumb PATH=/usr/sbin:/usr/bin:/sbin:/bin setpriv \
    --bounding-set=-sys_module,-sys_time,-sys_rawio,-sys_boot /lib/systemd/systemd --system
