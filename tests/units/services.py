"""Services that register in the booted Debian, and what they are used for."""
import os
import re

from units import (MOUNTD, NFS, QUOTA, STATD, USERS, is_active, is_registered, main_process, must, rows, run, start_service,
                   systemctl, user_id, within)

SERVED = "/run/served"
# rpc-statd requires rpcbind.socket, requires-rpcbind rpcbind.service, as ypserv does; nfs-ganesha is a unit that wants nothing
NAMES = ("rpc-statd.service", "requires-rpcbind.service", "ganesha.service")
GANESHA = """
NFS_CORE_PARAM { Protocols = 3; Enable_NLM = false; Enable_RQUOTA = false; }
NFSv4 { Graceless = true; RecoveryBackend = fs; }
EXPORT {
    Export_Id = 1; Path = /run/served; Pseudo = /run/served; Access_Type = RW; Squash = No_Root_Squash; SecType = sys;
    Protocols = 3; Transports = UDP, TCP; FSAL { Name = VFS; }
}
"""


def start():
    """Starts all of them, until they are registered."""
    systemctl("start", "rpc-statd.service", "requires-rpcbind.service")
    os.makedirs(SERVED, exist_ok=True)
    os.makedirs("/run/ganesha", exist_ok=True)
    with open(SERVED + "/greeting", "w") as file:
        file.write("hello\n")
    with open("/run/ganesha.conf", "w") as file:
        file.write(GANESHA)
    start_service("ganesha", "ganesha.nfsd", "-F", "-f", "/run/ganesha.conf", "-L", "/run/ganesha.log", "-p",
                  "/run/ganesha/pid")
    within(30, are_registered)
    return f"{len(rows())} rows"


def are_registered():
    is_registered(STATD, user_id("statd"))
    is_registered(NFS, "superuser")
    is_registered(MOUNTD, "superuser")
    is_registered(USERS, user_id("nobody"), ("tcp",))


def quota_starts():
    """Its unit looks for /sbin/rpcbind, and its script for a process called rpcbind, and for exports and quotas."""
    before = {}
    for path, line in (("/etc/exports", SERVED + " localhost(ro)"), ("/etc/fstab", "none /mnt ext4 noauto,usrquota 0 0")):
        with open(path, "a+") as file:
            file.seek(0)
            before[path] = file.read()
            file.write(line + "\n")
    systemctl("start", "quotarpc.service")
    for path, text in before.items():
        with open(path, "w") as file:
            file.write(text)
    is_active("quotarpc.service")
    within(5, is_registered, QUOTA, "superuser", ("udp", "tcp"))


def processes():
    """The main process of each; a forking unit's is known by its file."""
    is_active(*NAMES)
    return {name: main_process(name) for name in NAMES}


def statd_runs_on(before):
    must(processes()["rpc-statd.service"] == before["rpc-statd.service"], "rpc-statd was started again")


def mounts(host, protocol, kernels):
    """A whole mount of NFS version 3 in user space, for which the ports of nfs and mountd are looked up; and one by the
    kernel, if it has NFS. If it has none, mount.nfs comes as far as both ports."""
    must(run("nfs-cat", f"nfs://{host}{SERVED}/greeting?version=3") == "hello\n", "another file is served")
    os.makedirs("/run/mounted", exist_ok=True)
    said = run("mount.nfs", "-v", "-o", f"vers=3,nolock,proto={protocol}", f"{kernels}:{SERVED}", "/run/mounted",
               may_fail=True)
    found = re.findall(r"prog (100003 vers 3 prot [A-Z]+ port 2049|100005 vers 3 prot [A-Z]+ port \d+)$", said, re.M)
    must(len(found) == 2, said)
    if "mount(2): No such device" not in said:
        run("cmp", SERVED + "/greeting", "/run/mounted/greeting")
        run("umount", "/run/mounted")


def mounts_all():
    mounts("127.0.0.1", "tcp", "127.0.0.1")
    mounts("::1", "tcp6", "[::1]")


def inetd_is_registered():
    """Each program of /etc/inetd.conf, in each version."""
    numbers = {}
    with open("/etc/rpc") as file:
        for line in file:
            words = line.split("#")[0].split()
            numbers.update({name: int(words[1]) for name in words[:1] + words[2:]})
    wanted = set()
    with open("/etc/inetd.conf") as file:
        for name, first, last in re.findall(r"^(\w+)/(\d+)(?:-(\d+))?\s.*\brpc/udp\b", file.read(), re.M):
            wanted |= {(numbers[name], version) for version in range(int(first), int(last or first) + 1)}
    missing = wanted - {(program, version) for program, version, *_ in rows()}
    must(wanted and not missing, f"of {sorted(wanted)} not registered: {sorted(missing)}")
    return f"{len(wanted)} versions"
