"""The checks of the package, inside the Debian that tests/systemd.sh boots; /checks/name says which boot it is. The package
takes the place of Debian's rpcbind and gives it back, with rpc-statd, nfs-ganesha and a program of another user registered."""
import glob
import json
import os
import re
import subprocess
import sys
import textwrap
import time

import services
from units import (DEBIANS_RPCINFO, KEPT, OURS, OWN, SETTINGS, SOCKET_FILE, SOCKETS, STATD, apt, check, each_row_answers,
                   is_active, is_down, is_registered, journal, main_process, messages, must, program_of, rows, run,
                   set_options, show_of, succeeds, systemctl, user_id, version_of, within, without_address)

THIS = glob.glob("/checks/packages/rpcbind-proved_*.deb")[0]
NEXT = glob.glob("/checks/packages/next/rpcbind-proved_*.deb")[0]
DROPINS = "/run/systemd/system/" + OURS + ".d"
RATE = 1000  # connections a second, while it is restarted
seen = {}  # what a check found, for a later one


# ---- whose the rpcbind is

def debians_serves():
    is_active("rpcbind.service", "rpcbind.socket")
    must(program_of("rpcbind.service") == "/usr/sbin/rpcbind", program_of("rpcbind.service"))
    must(succeeds("/usr/sbin/rpcinfo", "-T", "tcp", "127.0.0.1", "100000", "4"), "it does not answer")


def ours_serves():
    """By its own names and by the other's, over its sockets and by its programs."""
    is_active(OURS, SOCKETS, "rpcbind.service", "rpcbind.socket")
    must(program_of("rpcbind.service") == "/usr/sbin/rpcbind-proved", program_of("rpcbind.service"))
    for words in (["-t", "127.0.0.1", str(OWN), "4"], ["-t", "::1", str(OWN), "4"], ["-u", "127.0.0.1", str(OWN), "4"]):
        run("rpcinfo", *words)
    mode = oct(os.stat(SOCKET_FILE).st_mode)[-3:]
    must(mode == "600", f"the local socket's mode is {mode}")


def is_confined():
    """A user of its own without any right, and with a filter of system calls."""
    with open(f"/proc/{main_process()}/status") as file:
        status = dict(line.split(":", 1) for line in file.read().splitlines())
    must(status["Uid"].split()[0] == user_id("rpcbind-proved"), status["Uid"])
    for name, wanted in (("CapEff", 0), ("CapPrm", 0), ("CapBnd", 0), ("CapAmb", 0), ("NoNewPrivs", 1), ("Seccomp", 2)):
        must(int(status[name], 16) == wanted, f"{name} is {status[name]}")


# ---- in and out

def remember():
    seen["rows"], seen["processes"] = rows(), services.processes()
    return f"{len(seen['rows'])} rows"


def switch_in():
    """README's line in. Debian's package stops its sockets, and with them rpc-statd, before a script of ours runs: it has
    other ports then. All else is as it was."""
    apt("install", THIS)
    ours_serves()
    found, new = rows(), services.processes()
    must(without_address(found, {STATD}) == without_address(seen["rows"], {STATD}), f"{seen['rows']}\nare now\n{found}")
    must(new["ganesha.service"] == seen["processes"]["ganesha.service"], "nfs-ganesha was started again")
    must(version_of("rpcbind-proved") == version_of(THIS) and version_of("rpcbind") is None, "the packages")
    return f"{len(found)} rows"


def switch_in_quietly():
    """The same, after the documented lines: nothing else is stopped."""
    with open("/checks/MIGRATING.md") as file:
        lines = re.search(r"\nTo have no service stopped.*\n\n((?:    .*\n)+)", file.read()).group(1)
    run("sh", "-e", "-c", textwrap.dedent(lines))
    with Crowd() as crowd:
        apt("install", THIS)
    within(5, nothing_was_stopped)
    must(not glob.glob("/run/systemd/system/rpcbind.*"), "systemd refuses on")
    return f"{len(seen['rows'])} rows, longest silence {crowd.figures['silence']} ms"


def switch_back():
    """README's line out: the same rows, of the same processes."""
    apt("install", "rpcbind")
    debians_serves()
    is_down(OURS, SOCKETS)
    found, new = rows(), services.processes()
    must(found == seen["rows"], f"{seen['rows']}\nare now\n{found}")
    must(new == seen["processes"], f"{seen['processes']} are now {new}")
    must(version_of("rpcbind-proved") is None, "the package is there")
    return f"{len(found)} rows"


def debians_keeps_them():
    """It writes the files anew that it read."""
    systemctl("restart", "rpcbind.service")
    within(5, debians_serves)
    within(5, lambda: must(rows() == seen["rows"], f"{seen['rows']}\nare now\n{rows()}"))


def nothing_changed():
    """But services that require rpcbind.service are restarted with it, as they are with Debian's."""
    ours_serves()
    found, new = rows(), services.processes()
    must(found == seen["rows"], f"{seen['rows']}\nare now\n{found}")
    services.statd_runs_on(seen["processes"])
    must(new["ganesha.service"] == seen["processes"]["ganesha.service"], "nfs-ganesha was started again")


def nothing_was_stopped():
    nothing_changed()
    new = services.processes()
    must(new == seen["processes"], f"{seen['processes']} are now {new}")


def remember_files():
    seen["files"] = files()


def files():
    """Each path with what a link leads to, and what stands in /etc, but accounts and what apt, dpkg, systemd and NFS write for
    themselves."""
    left_out = re.compile(r"/(checks|proc|sys|dev|tmp|root|var/(tmp|log|cache|lib/(apt|nfs|ucf))|var/lib/dpkg/[^/]*-old"
                          r"|run/(?!rpcbind)[^/]*|run/rpcbind/[^/]*|etc/(passwd|group|g?shadow)[^/]*|etc/machine-id)(/|$)")
    found = {}
    for folder, folders, names in os.walk("/"):
        folders[:] = [name for name in folders if not left_out.match(os.path.join(folder, name) + "/")]
        for name in folders + names:
            path = os.path.join(folder, name)
            if left_out.match(path):
                continue
            found[path] = os.readlink(path) if os.path.islink(path) else content_of(path)
    return found


def content_of(path):
    if not path.startswith("/etc/") or not os.path.isfile(path):
        return ""
    with open(path, "rb") as file:
        return file.read()


def purge_leaves_nothing():
    apt("purge", "rpcbind-proved")
    now, before = files(), seen["files"]
    changed = [path for path in {**now, **before} if now.get(path) != before.get(path) and "/var/lib/dpkg" not in path]
    must(not changed, f"changed: {sorted(changed)}")
    must(":/usr/sbin/nologin" in run("getent", "passwd", "rpcbind-proved"), "the user can log in")
    must(re.match("rpcbind-proved:[!*]", run("getent", "shadow", "rpcbind-proved")), "the user has a password")


# ---- restarts, ends and upgrades, while clients come

class Crowd:
    """Clients that come meanwhile; `figures` are what became of them."""
    def __enter__(self):
        self.stop = "/run/crowd-ends"
        if os.path.exists(self.stop):
            os.remove(self.stop)
        self.process = subprocess.Popen([sys.executable, "/checks/crowd.py", str(RATE), self.stop], stdout=subprocess.PIPE)
        time.sleep(1)
        return self

    def __exit__(self, *fault):
        time.sleep(1)
        open(self.stop, "w").close()
        self.figures = json.loads(self.process.communicate(timeout=60)[0])


def refuses_nobody(function, *words):
    with Crowd() as crowd:
        function(*words)
    figures = crowd.figures
    told = ", ".join(f"{figures[name]} {name}" for name in ("connections", "refused", "closed", "lost"))
    told += f", longest silence {figures['silence']} ms"
    must(figures["refused"] == 0, told)
    within(5, nothing_changed)
    return told


def restarts(unit=OURS):
    before = main_process()
    systemctl("restart", unit)
    within(10, is_another_than, before)


def restarts_twice():
    restarts()
    restarts()
    within(5, nothing_changed)


def is_another_than(before):
    is_active(OURS)
    must(main_process() not in (0, before), f"its process is {main_process()}, and was {before}")


def comes_back_after(signal):
    before = main_process()
    systemctl("kill", "--kill-whom=main", f"--signal={signal}", OURS)
    within(10, is_another_than, before)


def upgrades_to(package):
    before, settings = main_process(), open(SETTINGS).read()
    sockets = show_of(SOCKETS, "ActiveEnterTimestampMonotonic")
    apt("install", "--reinstall", package)
    must(version_of("rpcbind-proved") == version_of(package), "another version")
    must(main_process() != before, "the program before runs on")
    must(show_of(SOCKETS, "ActiveEnterTimestampMonotonic") == sockets, "the sockets were closed")
    must(open(SETTINGS).read() == settings, "the settings changed")


def others_are_reinstalled():
    before = main_process()
    names = ("nfs-common", "nfs-kernel-server", "openbsd-inetd", "rstatd", "libtirpc3")
    apt("install", "--reinstall", *(f"{name}={version_of(name)}" for name in names))
    within(10, services.are_registered)
    must(main_process() == before, "it was restarted")


def others_are_upgraded():
    before = main_process()
    apt("dist-upgrade")
    must("next" in version_of("nfs-common") and version_of("rpcbind") is None, "the packages")
    within(10, services.are_registered)
    must(main_process() == before, "it was restarted")


def rest_of_debians_is_purged():
    """That package's purge removes the file of the local socket, and a trigger makes it again."""
    before = os.stat(SOCKET_FILE).st_ino
    apt("purge", "rpcbind")
    within(5, nothing_was_stopped)
    must(os.stat(SOCKET_FILE).st_ino != before, "the purge left the file")
    for unit in (OURS, SOCKETS, "rpcbind.service", "rpcbind.socket"):
        must(systemctl("is-enabled", unit).strip() in ("enabled", "alias"), f"{unit} is not enabled")


def is_started_by_a_call():
    systemctl("stop", "rpcbind.service")
    is_down(OURS)
    is_active(SOCKETS)
    run("rpcinfo", "-p", "127.0.0.1")
    systemctl("start", "requires-rpcbind.service")
    within(5, nothing_changed)


def stands_still():
    """Its watchdog starts it again."""
    os.makedirs(DROPINS, exist_ok=True)
    with open(DROPINS + "/soon.conf", "w") as file:
        file.write("[Service]\nWatchdogSec=2\n")
    systemctl("daemon-reload")
    restarts()
    within(5, nothing_changed)
    before = main_process()
    systemctl("kill", "--kill-whom=main", "--signal=STOP", OURS)
    within(20, is_another_than, before)
    os.remove(DROPINS + "/soon.conf")
    systemctl("daemon-reload")
    restarts()
    within(5, nothing_changed)


# ---- settings

def serves_with(*lines):
    set_options(*lines)
    systemctl("restart", OURS)
    ours_serves()


def serves_with_reservations():
    documented = re.search(r'^#(RPCBIND_OPTIONS="--reserve .*)$', seen["settings"], re.M).group(1)
    serves_with(documented)
    within(5, nothing_changed)


def takes_debians_settings():
    since = time.time()
    with open("/etc/default/rpcbind") as file:
        before = file.read()
    with open("/etc/default/rpcbind", "w") as file:
        file.write('OPTIONS="-w -l -i"\n')
    serves_with()
    with open("/etc/default/rpcbind", "w") as file:
        file.write(before)
    told = messages(since)
    must(any("taken as" in line and "--log" in line for line in told), f"{told}")
    must(any("not taken" in line and "-i" in line for line in told), f"{told}")


def is_its_own(line):
    """Of the program, and not of systemd; the journal may not know the program's name once it has ended."""
    return line.get("_TRANSPORT") == "stdout"


def ends_as_failed(reason, *lines):
    """A start that can't succeed is tried once, and its last lines have the reason."""
    since, begin = time.time(), time.monotonic()
    set_options(*lines)
    must(not succeeds("systemctl", "restart", OURS), "it started")
    within(5, lambda: must(show_of(OURS, "ActiveState") == "failed", show_of(OURS, "ActiveState")))
    took = time.monotonic() - begin
    must(took < 40, f"after {took:.0f} s")
    own = [line for line in journal(since=since) if is_its_own(line)]
    told = [line["PRIORITY"] for line in own[-3:] if reason in line["MESSAGE"]]
    must("3" in told, f"{[(line['PRIORITY'], line['MESSAGE']) for line in own]}")
    starts = {line["_PID"] for line in own}
    must(len(starts) == 1, f"it was started {len(starts)} times")


def waits_and_fails():
    """A start waits 30 seconds for an address, and then ends with its reason."""
    begin = time.monotonic()
    must(not succeeds("systemd-run", "--quiet", "--unit=waits", "--property=Type=notify", "rpcbind-proved", "serve",
                      "--port", "20111", "--bind", "192.0.2.1"), "it started")
    took = time.monotonic() - begin
    must(29 < took < 60, f"after {took:.0f} s")
    must(show_of("waits.service", "ExecMainStatus") == "3", "another status")
    own = [line["MESSAGE"] for line in journal("waits.service") if is_its_own(line)]
    must("192.0.2.1" in own[-1], f"{own}")


def journal_is_tagged():
    lines = [line for line in journal() if is_its_own(line)]
    others = {line.get("SYSLOG_IDENTIFIER") for line in lines} - {"rpcbind"}
    must(lines and not others, f"{others} among {len(lines)} lines")
    return f"{len(lines)} lines, of priorities {sorted({line['PRIORITY'] for line in lines})}"


def without_ipv6(function):
    """The boot's own /proc/sys is read-only."""
    proc = "/run/proc"
    os.makedirs(proc, exist_ok=True)
    run("mount", "-t", "proc", "proc", proc)
    try:
        set_ipv6(proc, "1")
        return function()
    finally:
        set_ipv6(proc, "0")
        run("umount", proc)


def set_ipv6(proc, off):
    for name in ("all", "default", "lo"):
        with open(f"{proc}/sys/net/ipv6/conf/{name}/disable_ipv6", "w") as file:
            file.write(off)


def statd_registers_on_ipv4():
    """As the daemon says at its start: libtirpc goes to [::1] if /etc/netconfig has tcp6, and nobody has that address here."""
    since = time.time()
    systemctl("restart", SOCKETS)
    within(10, is_active, OURS, SOCKETS)
    told = messages(since)
    must(any("::1 is no address of this machine" in line for line in told), f"{told}")
    with open("/etc/netconfig") as file:
        before = file.read()
    with open("/etc/netconfig", "w") as file:
        file.write(re.sub(r"^(udp6|tcp6)\s.*\n", "", before, flags=re.M))
    try:
        systemctl("restart", "rpc-statd.service")
        within(10, is_registered, STATD, user_id("statd"), ("udp", "tcp"))
    finally:
        with open("/etc/netconfig", "w") as file:
            file.write(before)


def status_has_numbers():
    """Of all rows, as `rpcinfo` lists them; they are told anew after half of the watchdog's time."""
    def agrees():
        listed, told = len(run(DEBIANS_RPCINFO).splitlines()) - 1, show_of(OURS, "StatusText")
        must(re.fullmatch(rf"{listed} of 1024 rows, \d+ of 64 connections", told), f"'{told}', with {listed} rows")
        return told
    return within(20, agrees)


def user_asks():
    """Who may not open the local socket."""
    run("runuser", "-u", "nobody", "--", "rpcinfo", "-p")


def keeps_its_rows_alone():
    status = os.stat(KEPT)
    must(str(status.st_uid) == user_id("rpcbind-proved") and oct(status.st_mode)[-3:] == "600", f"{status}")


def record_agrees():
    """A record stays after a stop, and gives the same again."""
    folder = f"/etc/systemd/system/{OURS}.d"
    record = "/var/log/rpcbind-proved/record"
    os.makedirs(folder, exist_ok=True)
    run("cp", "/usr/share/doc/rpcbind-proved/rpcbind-proved.record.conf", folder + "/record.conf")
    systemctl("daemon-reload")
    serves_with(f'RPCBIND_OPTIONS="--record {record}"')
    systemctl("stop", OURS)
    with open(record) as file:
        words = file.readline().removeprefix("# rpcbind ").replace("'", "").split()
    with open(record) as file:
        done = subprocess.run(["rpcbind-proved", *words], stdin=file, stdout=subprocess.DEVNULL, timeout=60)
    before = open(record).read()
    systemctl("start", OURS)
    must(done.returncode == 0 and open(record + ".before").read() == before, f"status {done.returncode}")
    run("rm", "-r", folder)
    systemctl("daemon-reload")
    serves_with()


# ---- the boots

def check_ends_and_upgrades():
    check("a restart: the same rows, owners and processes", restarts_twice)
    check("nobody is refused while it is restarted", refuses_nobody, restarts)
    check("nobody is refused while it is restarted by the other's name", refuses_nobody, restarts, "rpcbind.service")
    for signal in ("KILL", "TERM", "HUP", "ABRT"):
        check(f"nobody is refused after a {signal}", refuses_nobody, comes_back_after, signal)
    check("nobody is refused while it is upgraded", refuses_nobody, upgrades_to, NEXT)
    check("nobody is refused while the version before is installed", refuses_nobody, upgrades_to, THIS)
    check("nobody is refused while it is reinstalled", refuses_nobody, upgrades_to, THIS)
    check("after a stop a call starts it", is_started_by_a_call)
    check("if it stands still it is started again", stands_still)
    check("NFS is mounted, with nothing restarted", services.mounts_all)
    check("each row's program answers", each_row_answers)


def check_settings():
    seen["settings"] = open(SETTINGS).read()
    check("it serves with the documented reservations", serves_with_reservations)
    check("it takes Debian's settings, and names what it can't", takes_debians_settings)
    check("a limit out of its range ends as failed", ends_as_failed, "--conns 0", 'RPCBIND_OPTIONS="--conns 0"')
    check("so does a word that is none", ends_as_failed, "--no-word", 'RPCBIND_OPTIONS="--no-word"')
    os.chmod(KEPT, 0o666)
    check("so does a file of rows that others may write", ends_as_failed, "mode 0666")
    os.chmod(KEPT, 0o600)
    check("so does a start for an address that isn't there", waits_and_fails)
    check("it serves with its defaults again", serves_with)
    check("rpc-statd registers without IPv6", without_ipv6, statd_registers_on_ipv4)
    check("rpc-statd registers with IPv6 again", statd_registers_again)
    check("a record stays after a stop, and agrees", record_agrees)
    check("its lines have its name and priorities", journal_is_tagged)
    with open(SETTINGS, "w") as file:
        file.write(seen["settings"])


def statd_registers_again():
    restarts(SOCKETS)
    systemctl("restart", "rpc-statd.service")
    within(10, services.are_registered)


def switch():
    run("apt-get", "update")
    check("Debian's is there after the boot", within, 10, debians_serves)
    remember_files()
    check("services register with it", services.start)
    remember()
    check("one line puts ours in its place: the same rows and owners", switch_in)
    check("it is confined", is_confined)
    check("the rows are kept in a file of its user", keeps_its_rows_alone)
    check("its status has the numbers of rows and of connections", status_has_numbers)
    check("a user without rights asks it", user_asks)
    check("a service starts that looks for /sbin/rpcbind", services.quota_starts)
    check("NFS is mounted", services.mounts_all)
    remember()
    check("one line puts Debian's back: the same rows, owners and processes", switch_back)
    check("Debian's keeps them", debians_keeps_them)
    check("NFS is mounted by Debian's", services.mounts_all)
    check("a purge leaves nothing but a locked user", purge_leaves_nothing)
    remember()
    check("ours is put in its place again, with nothing stopped", switch_in_quietly)
    check_ends_and_upgrades()
    check_settings()
    check("packages around it are reinstalled", others_are_reinstalled)
    check("packages around it are upgraded", others_are_upgraded)
    systemctl("start", "requires-rpcbind.service")  # a start that failed had stopped it
    remember()
    check("the rest of Debian's is purged, with nothing stopped", rest_of_debians_is_purged)


def again():
    check("ours is there after a boot", within, 20, ours_serves)
    check("inetd's services are registered", within, 20, services.inetd_is_registered)


def far():
    again()
    check("rpc-statd registers after a boot", statd_registers_again_alone)
    check("it is there before /var of NFS", is_there_before_var)
    check("the boot had no cycle in its order", has_no_cycle)
    check("it waits for no network", waits_for_no_network)


def statd_registers_again_alone():
    systemctl("restart", "rpc-statd.service")
    within(10, is_registered, STATD, user_id("statd"))


def is_there_before_var():
    is_active("var.mount")
    ours, var = (int(show_of(unit, "ActiveEnterTimestampMonotonic")) for unit in (OURS, "var.mount"))
    must(ours < var, f"ours at {ours}, /var at {var}")


def has_no_cycle():
    said = run("systemd-analyze", "verify", "default.target", may_fail=True)
    must("ordering cycle" not in said, said)


def waits_for_no_network():
    said = "".join(show_of(unit, name) for unit in (OURS, SOCKETS) for name in ("After", "Wants", "Requires"))
    must("network" not in said, said)


if __name__ == "__main__":
    with open("/checks/name") as name_file:
        {"switch": switch, "again": again, "far": far}[name_file.read().strip()]()
    print("end of the checks", flush=True)
