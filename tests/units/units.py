"""What the checks of the units ask the booted Debian: its systemd, its journal, its apt, and what is registered there.

A function that finds something wrong raises Wrong with what it saw."""
import json
import re
import subprocess
import time

OURS = "rpcbind-proved.service"
SOCKETS = "rpcbind-proved.socket"
SOCKET_FILE = "/run/rpcbind.sock"
KEPT = "/run/rpcbind-proved/rows"
SETTINGS = "/etc/default/rpcbind-proved"
DEBIANS_RPCINFO = "/checks/rpcinfo"  # it goes with Debian's package, and so is a copy
STATD, NFS, MOUNTD, QUOTA, OWN, USERS = 100024, 100003, 100005, 100011, 100000, 200001


class Wrong(Exception):
    pass


counts = {"ok": 0, "FAILED": 0}


def check(name, function, *words):
    """Runs a check and says how it went, with what was wrong. It may return a figure to be shown."""
    try:
        figure = function(*words)
    except Exception as fault:  # whatever it is, the checks go on
        show("FAILED", name)
        state = run("systemctl", "--no-pager", "--lines=8", "status", OURS, may_fail=True)
        for line in f"{type(fault).__name__}: {fault}\n{state}".splitlines():
            print("            " + line, flush=True)
    else:
        show("ok", name + (f": {figure}" if figure else ""))


def show(word, text):
    counts[word] += 1
    print(f"{word:7} {text}", flush=True)


def must(holds, text):
    if not holds:
        raise Wrong(text)


def run(*words, may_fail=False, **more):
    """What a command writes; its status must be 0, unless it may fail."""
    done = subprocess.run(words, text=True, stdout=subprocess.PIPE, stderr=subprocess.STDOUT, stdin=subprocess.DEVNULL,
                          timeout=120, **more)
    must(may_fail or done.returncode == 0, f"{' '.join(words)}: status {done.returncode}\n{done.stdout}")
    return done.stdout


def succeeds(*words):
    return subprocess.run(words, stdout=subprocess.DEVNULL, stderr=subprocess.DEVNULL, stdin=subprocess.DEVNULL,
                          timeout=120).returncode == 0


def within(seconds, function, *words):
    """Has a check succeed within this many seconds."""
    end = time.monotonic() + seconds
    while True:
        try:
            return function(*words)
        except Wrong:
            if time.monotonic() > end:
                raise
            time.sleep(0.1)


# ---- systemd

def systemctl(*words, **more):
    return run("systemctl", *words, **more)


def show_of(unit, name):
    return systemctl("show", f"--property={name}", "--value", unit).strip()


def is_active(*units):
    for unit in units:
        state = show_of(unit, "ActiveState")
        must(state == "active", f"{unit} is {state}\n" + run("journalctl", "--unit", unit, "--lines=12", "--quiet"))


def is_down(*units):
    for unit in units:
        state = show_of(unit, "ActiveState")
        must(state in ("inactive", "failed"), f"{unit} is {state}")


def main_process(unit=OURS):
    return int(show_of(unit, "MainPID"))


def program_of(unit):
    return run("readlink", f"/proc/{main_process(unit)}/exe").strip()


def start_service(name, *words):
    """As a unit of its own, which wants nothing of rpcbind's."""
    run("systemd-run", "--quiet", f"--unit={name}", "--property=Type=exec", *words)


def set_options(*lines):
    """The settings of the service; with no words they are the defaults."""
    with open(SETTINGS, "w") as file:
        file.writelines(line + "\n" for line in lines)


def journal(unit=OURS, since=None):
    """The lines of a unit, as dictionaries."""
    words = ["journalctl", "--boot", "--quiet", "--output=json", f"--unit={unit}"]
    if since is not None:
        words.append(f"--since=@{since:.3f}")
    run("journalctl", "--sync")
    return [json.loads(line) for line in run(*words).splitlines() if line.startswith("{")]


def messages(since=None):
    """What the daemon itself wrote."""
    return [line["MESSAGE"] for line in journal(since=since) if line.get("SYSLOG_IDENTIFIER") == "rpcbind"]


# ---- packages

def apt(*words):
    return run("apt-get", "--yes", "--allow-downgrades", *words,
               env={"DEBIAN_FRONTEND": "noninteractive", "PATH": "/usr/sbin:/usr/bin:/sbin:/bin"})


def version_of(package):
    """Of a file, or of what is installed under this name with nothing left to do."""
    if package.endswith(".deb"):
        return run("dpkg-deb", "--field", package, "Version").strip()
    state = run("dpkg-query", "--show", "--showformat=${db:Status-Abbrev}${Version}", package, may_fail=True)
    return state.removeprefix("ii ") if state.startswith("ii ") else None


# ---- what is registered

def rows(command=DEBIANS_RPCINFO):
    """The rows with their owners but the rpcbind's own, as Debian's rpcinfo lists them: (program, version, netid,
    address, owner)."""
    found = []
    for line in run(command).splitlines()[1:]:
        program, version, netid, address, *_, owner = line.split()
        if int(program) != OWN:
            found.append((int(program), int(version), netid, address, owner))
    return sorted(found)


def owners_of(program, listed):
    return {(netid, owner) for number, _, netid, _, owner in listed if number == program}


def is_registered(program, owner=None, netids=("udp", "tcp", "udp6", "tcp6")):
    """A row of this program is on each of these netids, by this owner if one is named."""
    listed = rows()
    found = owners_of(program, listed)
    for netid in netids:
        must(any(of == netid and owner in (None, by) for of, by in found), f"no {program} on {netid} in {listed}")


def without_address(listed, programs):
    """Rows of these programs without their addresses: what registers anew has others."""
    return sorted((p, v, n, None if p in programs else a, o) for p, v, n, a, o in listed)


def each_row_answers():
    """Procedure 0 of each program of NFS, at its own address."""
    listed = [row for row in rows() if row[0] in (STATD, NFS, MOUNTD) and row[2] != "local"]
    for program, version, netid, address, _ in listed:
        address = re.sub(r"^::\.", "::1.", re.sub(r"^0\.0\.0\.0\.", "127.0.0.1.", address))
        run("rpcinfo-proved", "-a", address, "-T", netid, str(program), str(version))
    return f"{len(listed)} rows"


def user_id(name):
    return run("id", "-u", name).strip()
