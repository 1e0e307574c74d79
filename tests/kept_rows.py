#!/usr/bin/env -S python3 -B
"""The daemon that keeps its rows in a file, in scenarios that tests/run-rows.sh runs: kept_rows.py NAME. With --names it prints
their names. Rows are as rpcinfo prints them: program, version, netid, address and owner.
"""
import itertools
import os
import re
import resource
import shlex
import shutil
import signal
import subprocess
import time

from kept import lines_left
from row import Encoder
from scenarios import (RPCBIND, RPCINFO, WORK, Background, asked, ended_as, finished, judge, lines, output_of, read, run_named, same,
                       write)

FILE = f"{WORK}/rows"
IS_ROOT = os.getuid() == 0
OF_ROOT = "200001 1 tcp 127.0.0.1.8.1 superuser"
TRUE_REPLY = f"reply {1:016x}{0:032x}{1:08x}"


class Keeper(Background):
    """The daemon with such a file. It has few connections, as it then begins in a third of the time."""

    def __init__(self, *words, file=FILE, start=(RPCBIND,), **more):
        super().__init__("said", [*start, "serve", "--port", "20112", "--conns", "8", "--keep", file, *words], **more)

    def said_is(self, *wanted):
        """Whether what it said, but for where it listens, is just this."""
        said = [it for it in self.said().splitlines() if "listening" not in it]
        return same(lines(*wanted), lines(*said), "what the daemon said")

    def time_used(self):
        """Its processor time so far, in nanoseconds."""
        return int(read(f"/proc/{self.process.pid}/schedstat").split()[0])


def start_with(file, turns=1, port=20112):
    """A start that ends by itself."""
    return finished([RPCBIND, "serve", "--port", str(port), "--turns", str(turns), "--keep", file], stderr=subprocess.PIPE)


def add(path, text):
    with open(path, "a", encoding="utf-8") as file:
        file.write(text)


def answers_are(questions, **environment):
    """Asks it, with a connection or a datagram for each call: questions of tests/ask.py, each with its answer."""
    return same(*asked(questions, PORT="20112", **environment), "answers")


def made(words):
    """A line of an event, of words of tests/row.py."""
    return Encoder().lines_of(words)[-1] + "\n"


def line_for(row):
    """The line that keeps a row, as RFC 1833 has its SET: by the row's owner, as number 0, at the moment 0."""
    *words, owner = row.split()
    uid = {"unknown": "", "superuser": " uid=0"}.get(owner, f" uid={owner}")
    return made(f"datagram 0 127.0.0.1:0 (xid=0{uid} 4 set {' '.join(words)})")


def lines_for(rows):
    return "".join(map(line_for, rows))


def at_moment_0(text):
    return re.sub("^datagram [0-9]* ", "datagram 0 ", text, flags=re.M)


def keeps(rows, file=FILE):
    """Whether the lines of the file leave these rows, in their order, and nothing else. The moments are the daemon's own."""
    return same(lines_for(rows), at_moment_0("".join(lines_left(read(file)))), "the file of kept rows")


def lists(rows, are_many=False):
    """Whether the daemon lists these rows beside its own. Of many rows rpcinfo takes long."""
    if are_many:
        listed = asked("tcp 127.0.0.1 4 dump", PORT="20112")[1].partition(": ")[2].rstrip("\n").split("; ")
    else:
        listed = output_of(RPCINFO, "--port", "20112", "127.0.0.1").splitlines()
    return same(lines(*rows), lines(*(it for it in listed if not it.startswith("100000 "))), "rows")


def state_of(file=FILE):
    """A file that was written to has another one."""
    it = os.lstat(file)
    return it.st_ino, it.st_mtime_ns, it.st_ctime_ns, it.st_mode, it.st_uid, os.path.isfile(file) and read(file)


def record_agrees(path):
    """Runs a record's events again, by the command in its first line."""
    with open(path, encoding="utf-8") as record:
        words = shlex.split(record.readline().removeprefix("# rpcbind "))
        record.seek(0)
        return finished([RPCBIND, *words], stdin=record).returncode == 0


def sets_all(*programs, procedure="set", **environment):
    """SETs of these programs, each answered TRUE. With AT_ONCE they come to the daemon at once."""
    address = " tcp 127.0.0.1.8.1" * (procedure == "set")
    return answers_are(lines(*(f"udp 127.0.0.1 4 {procedure} {it} 1{address}: 1" for it in programs)), **environment)


def sets_at_once(daemon, *programs):
    return sets_all(*programs, AT_ONCE=str(daemon.process.pid))


def unsets_all(*programs):
    return sets_all(*programs, procedure="unset")


def rows_of(*programs):
    return [f"{it} 1 tcp 127.0.0.1.8.1 unknown" for it in programs]


def is_there(program):
    return shutil.which(program) is not None


# ---- what is kept

def begins_with_rows(rows, record):
    """Whether a record begins with the SETs of these rows, each with TRUE, and then has statistics begin anew."""
    wanted = [*itertools.chain(*((line_for(it), f"#> {TRUE_REPLY}\n") for it in rows)), "zero\n", "#> ok\n"]
    begin = read(record).splitlines(keepends=True)[1:len(wanted) + 1]
    return same("".join(wanted), at_moment_0("".join(begin)), "the beginning of a record")


def rows_are_kept():
    """Rows of each kind, their owners and their order are there after a stop. A replay of the file answers each line by TRUE."""
    own = "superuser" if IS_ROOT else os.getuid()
    record = f"{WORK}/record"
    statistics = [RPCINFO, "--port", "20112", "-m"]  # of a daemon of which nothing was asked before
    rows = [f"200001 1 tcp 127.0.0.1.8.1 {own}", f"200003 2 tcp6 ::1.8.1 {own}", "200003 2 udp6 ::.8.1 unknown",
            f"200004 4294967295 local /run/served {own}", f"200005 1 tcp 192.0.2.1.8.1 {own}", "200002 1 tcp 0.0.0.0.8.2 unknown"]
    with Keeper() as daemon:
        is_new = not os.path.exists(FILE)
        before = finished(statistics)
        judge(is_new and before.returncode == 0 and answers_are("""
            tcp 127.0.0.1 4 set 200001 1 tcp 127.0.0.1.8.1: 1
            udp 127.0.0.1 2 set 200002 1 udp 2049: 1
            tcp 127.0.0.1 3 set 200003 2 tcp6 ::1.8.1: 1
            udp 127.0.0.1 4 set 200003 2 udp6 ::.8.1: 1
            tcp 127.0.0.1 4 set 200004 4294967295 local /run/served: 1
            tcp 127.0.0.1 4 set 200005 1 tcp 192.0.2.1.8.1: 1
            udp 127.0.0.1 2 unset 200002 1 udp: 1
            udp 127.0.0.1 4 set 200002 1 tcp 0.0.0.0.8.2: 1"""), "a daemon that keeps its rows answers")
        of_file = os.stat(FILE)
        judge(lists(rows) and keeps(rows) and (of_file.st_mode & 0o7777, of_file.st_uid) == (0o600, os.getuid()) and daemon.said_is(),
              "rows are kept, and the daemon's own are not")
    judge(keeps(rows), "rows are kept after a stop")
    with open(FILE, encoding="utf-8") as file:
        replayed = finished([RPCBIND, "replay"], stdin=file, stderr=subprocess.PIPE)
    judge(ended_as(replayed, lines(*[TRUE_REPLY] * 8)), "a replay of kept rows")
    with Keeper("--record", record, "--record-limit", "100000") as daemon:
        judge(same(before.stdout, finished(statistics).stdout, "statistics"), "statistics begin anew after a start")
        judge(lists(rows) and daemon.said_is(), "kept rows are there after a start, with their owners and in their order")
        judge(begins_with_rows(rows, record), "a record begins with the kept rows")
        judge(answers_are("""
            udp 127.0.0.1 4 set 200001 1 tcp 127.0.0.1.8.9: 0
            udp 127.0.0.1 4 unset 200001 1: 0
            udp 127.0.0.1 4 unset 200002 1: 1
            tcp 127.0.0.1 4 unset 200003 2 tcp6: 1
            tcp 127.0.0.1 4 set 200003 2 tcp6 ::1.8.3: 1"""), "the owners of kept rows, and nobody else, remove them")
    judge(record_agrees(record), "the record of a daemon that began with kept rows agrees")
    rows = [rows[0], *rows[2:5], f"200003 2 tcp6 ::1.8.3 {own}"]
    with Keeper():
        judge(lists(rows) and keeps(rows), "rows are kept through two starts")


def stays(before):
    """Whether the file does, and the daemon answers, in a turn after those before, at whose ends it keeps what changed."""
    return all(finished([RPCINFO, "--port", "20112", "-p", "127.0.0.1"]).returncode == 0 for _ in range(2)) and state_of() == before


def changes_alone_are_written():
    """Nothing is written if no change was accepted: by calls that only ask, by SETs and UNSETs that are refused, in empty
    turns, and by a start."""
    with Keeper():
        judge(sets_all(200001, 200002), "a daemon that keeps two rows")
        before = state_of()
        for _ in range(3):
            finished([RPCINFO, "--port", "20112", "-t", "127.0.0.1", "100000", "4"])
        judge(answers_are("""
            udp 127.0.0.1 4 set 200001 1 tcp 127.0.0.1.8.1: 0
            tcp 127.0.0.1 4 set 200001 1 tcp 127.0.0.1.8.1: 0
            udp 127.0.0.1 4 set 100000 9 tcp 127.0.0.1.8.1: 0
            udp 127.0.0.1 4 set 200003 1 tcp nowhere: 0
            udp 127.0.0.1 4 unset 200003 1: 0
            udp 127.0.0.1 4 unset 100000 4: 0
            udp 127.0.0.1 2 getport 200001 1 tcp: 2049"""), "calls that change nothing")
        judge(stays(before), "a file of kept rows stays where nothing changed")
    with Keeper():
        judge(stays(before), "a file of kept rows stays at a start")
        judge(unsets_all(200002) and state_of() != before, "a file of kept rows is another one after a change")


def changes_are_kept_before_replies():
    """The calls of the system by which changes are kept and answered: at the first change a file reaches the disk and takes the
    place of the one before, then lines that are added to it reach the disk, and then the reply goes out. Of calls that change
    nothing there is the reply alone. The lines of changes that come at once reach the disk at once, before the first reply."""
    tracing = ["strace", "-D", "-o", f"{WORK}/trace", "-e", "trace=fdatasync,rename,renameat,renameat2,write,writev,sendto,sendmsg"]
    if not is_there("strace") or finished(["strace", "-D", "-o", "/dev/null", "true"], stderr=subprocess.DEVNULL).returncode:
        print("what comes before a reply is not tried: that wants strace")
        return
    with Keeper(start=[*tracing, RPCBIND]) as daemon:
        judge(answers_are("""
            udp 127.0.0.1 4 set 200001 1 tcp 127.0.0.1.8.1: 1
            udp 127.0.0.1 4 set 200001 1 tcp 127.0.0.1.8.1: 0
            tcp 127.0.0.1 4 set 200002 1 tcp 127.0.0.1.8.1: 1
            tcp 127.0.0.1 2 getport 200001 1 tcp: 2049
            udp 127.0.0.1 4 unset 200001 1: 1"""), "a daemon whose calls are traced")
        judge(sets_at_once(daemon, *range(1001, 1006)), "five changes at once")
    calls = (it for it in read(f"{WORK}/trace").splitlines() if not re.search('"(datagram|rpcbind:) ', it))
    order = [it[1].replace("write", "send") for it in map(re.compile("(fdatasync|rename|write|send)").match, calls) if it]
    wanted = ["fdatasync", "rename", *"send send fdatasync send send fdatasync send fdatasync".split(), *["send"] * 5]
    judge(same(lines(*wanted), lines(*order), "calls of the system"), "a change is kept before its reply goes out")


def rows_of_others_are_kept():
    """A file that another program wrote, with rows of other users, a comment and an empty line."""
    rows = [OF_ROOT, "200001 2 tcp 127.0.0.1.8.1 1000", "200001 3 udp 127.0.0.1.8.1 4294967295", "200002 1 local @name unknown"]
    write(FILE, f"# kept\n{lines_for(rows)}\n")
    with Keeper() as daemon:
        judge(lists(rows) and daemon.said_is(), "kept rows of other users")


def other_starts_leave_the_file():
    """A daemon whose port is in use leaves the file as it is, and one whose record ends in the midst of the kept rows has them all."""
    rows, record = rows_of(*range(1001, 1021)), f"{WORK}/record"
    write(FILE, lines_for(rows))
    before = state_of()
    with Background("listening", [RPCBIND, "serve", "--port", "20112"]):
        judge(start_with(FILE).returncode == 3 and state_of() == before,
              "a file of kept rows beside a daemon that has the port")
    with Keeper("--record", record, "--record-limit", "1000"):
        are_listed = lists(rows)
    judge(are_listed and os.stat(record).st_size <= 1000 and read(record).splitlines()[-1].startswith("# the limit")
          and record_agrees(record), "a record that ends in the midst of kept rows")
    done = start_with(FILE, turns=3)
    judge((done.returncode, done.stderr) == (0, "") and state_of() == before, "three turns of a daemon that keeps its rows")


# KEEP-6 DATA-1
# As many rows as there may be, with the longest addresses, of root, of nobody known and of others.
def most_rows_are_kept():
    rows = [f"{it} 1 local /run/{it:0123} {('superuser', 'unknown', it)[it % 3]}" for it in range(300001, 304091)]
    write(FILE, lines_for(rows))
    with Keeper("--rows", "4096") as daemon:
        judge(lists(rows, are_many=True) and daemon.said_is(), "4,096 rows of 128 bytes are there after a start")
        judge(answers_are("""
            udp 127.0.0.1 4 set 200001 1 udp 127.0.0.1.8.1: 0
            udp 127.0.0.1 4 unset 300001 1: 1"""), "4,096 kept rows are as many as there may be")
        judge(lists(rows[1:], are_many=True) and keeps(rows[1:]), "4,095 rows of 128 bytes are kept")


def rows_that_cannot_be_set_are_left_out():
    """Rows that cannot be set again are said, each in a line; the others stay."""
    rows = [OF_ROOT, "200002 1 udp 127.0.0.1.8.1 unknown"]
    for name, words, others in (
            ("a kept row for which there is no room", ["--rows", "8"], ["200003 1 tcp 127.0.0.1.8.1 1000"]),
            ("kept rows that cannot be set again", [], ["100000 9 tcp 127.0.0.1.8.1 superuser", "200001 1 tcp 127.0.0.1.8.2 1000"])):
        write(FILE, lines_for([rows[0], *others, rows[1]] if not words else [*rows, *others]))
        said = (f"rpcbind: {FILE}: {' '.join(it.split()[:3])} can't be set again" for it in others)
        with Keeper(*words) as daemon:
            judge(lists(rows) and daemon.said_is(*said), name)


# ---- files that are refused

def refuses(name, said, file=FILE):
    """Starts with a file that is refused: this is said of it, with status 3, and it stays as it is."""
    before = state_of(file)
    done = start_with(file)
    judge(ended_as(done, stderr=f"rpcbind: read failed\nrpcbind: {file}: {said}\n", status=3) and state_of(file) == before,
          f"a file of kept rows: {name}")


# KEEP-4 KEEP-10
# Lines that are no event, and events that set no row as it is kept: another version's SET, another procedure, caller, number,
# verifier or owner, and other events. The start ends with the number of this line, which is the third.
def other_lines_are_refused():
    with_set = "4 set 200002 1 tcp 127.0.0.1.8.1"
    of_kept, no_event = "datagram 0 127.0.0.1:0 ({})".format, ["row", "datagram", "datagram 0 127.0.0.1:0"]
    no_event += [f"datagram  0 127.0.0.1:0 (xid=0 {with_set})", "lost ", "bytes 0 1", " "]
    sets_none = [*map(of_kept, (
        "xid=0 3 set 200002 1 tcp 127.0.0.1.8.1", "xid=0 2 set 200002 1 tcp 2049", "xid=0 4 unset 200002 1 tcp 127.0.0.1.8.1",
        "xid=0 4 getaddr 200002 1 tcp 127.0.0.1.8.1", "xid=0 4 null", f"xid=1 {with_set}", f"xid=0 {with_set} superuser",
        f"xid=0 rpcvers=3 {with_set}", f"xid=0 prog=100005 {with_set}", f"xid=0 cut=76 {with_set}",
        "xid=0 4 set 200002 1 x 127.0.0.1.8.1")), "datagram 0 127.0.0.1:0 -"]
    sets_none += [f"datagram 0 {it} (xid=0 {with_set})" for it in (
        "127.0.0.1:1", "127.0.0.2:0", "[::1]:0", "local", "127.0.0.1:0/0", "127.0.0.1:0>127.0.0.1")]
    sets_none += ["open 0 127.0.0.1:0", "lost", "zero"]
    for said, words in ("bad event", no_event), ("sets no row that was kept", sets_none):
        for it in words:
            write(FILE, f"# one row\n{line_for(OF_ROOT)}{made(it)}")
            refuses(it, f"line 3: {said}")
    write(FILE, line_for(OF_ROOT)[:-21] + "\n")
    refuses("a line that is cut off", "line 1: sets no row that was kept")
    write(FILE, line_for(OF_ROOT)[:-20] + "\n")
    refuses("a line that is cut off within a byte", "line 1: bad event")


# KEEP-13
# What stands behind the last line feed is left out and said, whatever part of a line it is; the file stays until the first
# change, which writes it anew.
def torn_lines_are_left_out():
    rows, last = rows_of(1001, 1002), *map(line_for, rows_of(1003))
    for left in 1, 20, 100, len(last) - 1:
        write(FILE, lines_for(rows) + last[:left])
        before = read(FILE)
        with Keeper() as daemon:
            judge(lists(rows) and daemon.said_is(f"rpcbind: {FILE}: its last line is not whole, and is left out ({left} bytes)")
                  and read(FILE) == before, f"a last line of which {left} bytes are there")
    with Keeper():
        judge(sets_all(1004) and keeps(rows_of(1001, 1002, 1004)) and read(FILE).count("\n") == 3 and read(FILE).endswith("\n"),
              "the first change leaves no part of a line")


# KEEP-11 KEEP-12 KEEP-15
# A change is a line, and an UNSET of version 2 leaves tcp6, udp6 and local. The file is written anew when its lines would be
# more than twice the rows and 64.
def changes_are_lines():
    def count_lines():
        return read(FILE).count("\n")

    rows = ["200001 1 udp6 ::1.8.1 unknown", "200001 1 local /run/x unknown"]
    with Keeper():
        judge(answers_are("""
            udp 127.0.0.1 4 set 200001 1 tcp 127.0.0.1.8.1: 1
            udp 127.0.0.1 4 set 200001 1 udp 127.0.0.1.8.1: 1
            udp 127.0.0.1 4 set 200001 1 udp6 ::1.8.1: 1
            udp 127.0.0.1 4 set 200001 1 local /run/x: 1
            udp 127.0.0.1 2 unset 200001 1 tcp: 1""") and keeps(rows) and count_lines() == 6,
              "an UNSET of version 2 has a line for tcp and one for udp")
        inode = os.stat(FILE).st_ino
        pair = "udp 127.0.0.1 4 set 200002 1 tcp 127.0.0.1.8.1: 1\nudp 127.0.0.1 4 unset 200002 1: 1\n"
        judge(answers_are(pair * 31) and keeps(rows) and count_lines() == 68 and os.stat(FILE).st_ino == inode,
              "62 changes have 62 lines")
        judge(unsets_all(200001) and count_lines() == 0, "a file of more lines than twice the rows and 64 is written anew")


# FILE-6
# A file that was taken away, replaced, or written to from outside is said, and written anew.
def exchanged_files_are_written_anew():
    def replace():
        shutil.copy(FILE, f"{WORK}/other")
        os.replace(f"{WORK}/other", FILE)

    said = []
    with Keeper() as daemon:
        judge(sets_all(1001, 1002) and daemon.said_is(), "a file that nobody else changes")
        for program, what, change in ((1003, "taken away", lambda: os.remove(FILE)), (1004, "replaced", replace),
                                      (1005, "emptied", lambda: write(FILE, ""))):
            change()
            said.append(f"rpcbind: keep {FILE}: somebody else changed it; all rows were written anew")
            judge(sets_all(program) and keeps(rows_of(*range(1001, program + 1))) and daemon.said_is(*said), f"a file that was {what}")


# KEEP-17 FILE-7
# A second daemon does not start with the file, and leaves it; after a kill another one starts at once.
def one_daemon_has_the_file():
    rows = rows_of(1001)
    with Keeper() as daemon:
        is_set = sets_all(1001)
        said = lines("rpcbind: read failed", f"rpcbind: {FILE}: another daemon keeps its rows there")
        judge(is_set and ended_as(start_with(FILE, port=20113), stderr=said, status=3) and keeps(rows), "a second daemon does not start")
        daemon.process.kill()
        daemon.process.wait()
    with Keeper() as daemon:
        judge(lists(rows) and daemon.said_is(), "another daemon starts after a kill")


# KEEP-6
# At most 4,096 lines of rows, and 16,777,216 bytes.
def long_files_are_refused():
    write(FILE, lines_for(f"{it} 1 tcp 127.0.0.1.8.1 superuser" for it in range(300001, 304098)))
    refuses("4,097 rows", "line 4097: too many rows")
    write(FILE, "\n" * 16777217)
    refuses("more bytes than are read", "too long")


# KEEP-15
# The longest journal of 4,000 rows is read in less than four times the time of their lines alone.
def long_journals_are_read():
    rows = [f"{it} 1 tcp 127.0.0.1.8.1 superuser" for it in range(300001, 304001)]
    change = "datagram 0 127.0.0.1:0 (xid=0 4 {})".format
    write(FILE, lines_for(rows))
    with Keeper("--rows", "4096") as daemon:
        short = daemon.time_used()
    add(FILE, (made(change("set 200001 1 udp 127.0.0.1.8.1")) + made(change("unset 200001 1 udp"))) * 2032)
    with Keeper("--rows", "4096") as daemon:
        judge(read(FILE).count("\n") == 8064 and daemon.time_used() < 4 * short, "a start with 4,000 rows in 8,064 lines")
        judge(lists(rows, are_many=True) and daemon.said_is(), "they are there after it")


# FILE-2
# A file that is no plain file, or that another user than root and the daemon's own may have written.
def files_of_others_are_refused():
    write(FILE, line_for(OF_ROOT))
    for mode in "620", "602", "666":
        os.chmod(FILE, int(mode, 8))
        refuses(f"mode {mode}", f"others may write it (mode 0{mode})")
    os.chmod(FILE, 0o644)
    with Keeper():
        judge(lists([OF_ROOT]), "a file of kept rows that others may read")
    link, dangling, fifo, folder = (f"{FILE}-{it}" for it in ("link", "dangling", "fifo", "folder"))
    os.symlink(FILE, link)
    os.symlink(f"{WORK}/nothing", dangling)
    os.mkfifo(fifo)
    os.mkdir(folder)
    for file in link, dangling, fifo, folder, "/dev/null":
        refuses(file, "is no plain file", file)
    judge(not os.path.exists(f"{WORK}/nothing"), "nothing is made where a link leads")
    if IS_ROOT:
        os.chown(FILE, 61000, -1)
        refuses("of another user", "belongs to user 61000")


# ---- writes that fail

def fails_by(fault, file=FILE):
    """What is said of a write that fails."""
    return f"rpcbind: keep {file}: {fault}; it is tried again at the next change"


def goes_well(file=FILE):
    """What is said of the first write that goes well after one that failed."""
    return f"rpcbind: keep {file}: it is written again"


def files_without_room_stay():
    """A file may have 1,024 bytes, in which five rows have room. That there is no more is said once, and so is the next write that
    goes well; then it is said again. The daemon serves on, no row leaves the file, and the next change tries again."""
    most = resource.getrlimit(resource.RLIMIT_FSIZE)[1]

    def limit():
        signal.signal(signal.SIGXFSZ, signal.SIG_IGN)
        resource.setrlimit(resource.RLIMIT_FSIZE, (1024, most))

    rows, fault = rows_of(*range(1001, 1014)), fails_by("File too large (os error 27)")
    with Keeper(preexec_fn=limit) as daemon:
        judge(sets_all(*range(1001, 1006)) and daemon.said_is() and keeps(rows[:5]), "five rows have room")
        judge(sets_at_once(daemon, 1006, 1007, 1008) and daemon.said_is(fault) and keeps(rows[:5]),
              "a file without room for eight rows is said once, and stays")
        judge(lists(rows[:8]), "the daemon serves on")
        judge(unsets_all(1001, 1002, 1003) and keeps(rows[3:8]), "rows are kept at the next change for which there is room")
        judge(sets_all(1009, 1010) and daemon.said_is(fault, goes_well(), fault) and keeps(rows[3:8]),
              "it is said again behind a write that went well")
        resource.prlimit(daemon.process.pid, resource.RLIMIT_FSIZE, (most, most))
        judge(sets_at_once(daemon, 1011, 1012, 1013) and keeps(rows[3:]) and daemon.said_is(fault, goes_well(), fault, goes_well()),
              "rows are kept once there is room")


def folders_may_come_later():
    """A folder that is not there is made while the daemon runs."""
    folder, file = f"{WORK}/folder", f"{WORK}/folder/rows"
    fault = "No such file or directory (os error 2)"
    said = [f"rpcbind: {file}.lock: {fault}; {file} is not locked", fails_by(fault, file)]
    with Keeper(file=file) as daemon:
        judge(sets_all(1001, 1002) and daemon.said_is(*said), "a folder that is not there is said once")
        os.mkdir(folder)
        judge(sets_all(1003) and keeps(rows_of(1001, 1002, 1003), file) and daemon.said_is(*said, goes_well(file)),
              "rows are kept once their folder is there")


def what_is_in_the_way_of_a_new_file_stays():
    """A plain file that was left behind in the place of the new file goes. A link and a folder stay, and are said; nothing is
    written where the link leads, and rows are kept once they are gone. Lines are added beside them."""
    new, victim = f"{FILE}.new", f"{WORK}/victim"
    rows, fault = rows_of(*range(1001, 1008)), fails_by("what is there is no plain file, and stays")
    write(new, "left")
    with Keeper() as daemon:
        judge(sets_all(1001) and keeps(rows[:1]) and not os.path.exists(new), "a new file that was left behind goes")
        write(victim, "kept")
        os.chmod(victim, 0o666)
        os.symlink(victim, new)
        judge(sets_all(1002) and keeps(rows[:2]) and daemon.said_is(), "a line is added beside a link")
    with Keeper() as daemon:
        judge(sets_all(1003, 1004) and keeps(rows[:2]) and daemon.said_is(fault) and os.path.islink(new) and read(victim) == "kept"
              and os.stat(victim).st_mode & 0o7777 == 0o666, "a link in the place of the new file is said once, and not followed")
        os.remove(new)
        judge(sets_all(1005) and keeps(rows[:5]) and daemon.said_is(fault, goes_well()), "rows are kept once the link is gone")
    os.mkdir(new)
    with Keeper() as daemon:
        judge(sets_all(1006) and keeps(rows[:5]) and daemon.said_is(fault), "a folder in the place of the new file is said")
        os.rmdir(new)
        judge(sets_all(1007) and keeps(rows), "rows are kept once the folder is gone")


def closed_folders_are_said():
    """As another user than root, in a folder that it may not write to."""
    folder, file, start = f"{WORK}/closed", f"{WORK}/closed/rows", [RPCBIND]
    os.mkdir(folder)
    if IS_ROOT:
        if not is_there("setpriv"):
            print("a folder that may not be written to is not tried: there is no setpriv")
            return
        start = ["setpriv", "--reuid=65534", "--regid=65534", "--clear-groups", shutil.copy(RPCBIND, f"{WORK}/program")]
        for it in start[-1], WORK, os.path.dirname(WORK):
            os.chmod(it, 0o755)
        os.chown(folder, 65534, -1)
    write(file, lines_for(rows_of(1001)))
    os.chmod(file, 0o644)
    os.chmod(folder, 0o555)
    fault = "Permission denied (os error 13)"
    said = [f"rpcbind: {file}.lock: {fault}; {file} is not locked", fails_by(fault, file)]
    with Keeper(file=file, start=start) as daemon:
        judge(sets_all(1002, 1003) and daemon.said_is(*said) and keeps(rows_of(1001), file),
              "a folder that may not be written to is said once, and the file stays")
        judge(lists(rows_of(1001, 1002, 1003)), "the daemon serves on")
        os.chmod(folder, 0o755)
        judge(unsets_all(1001) and keeps(rows_of(1002, 1003), file), "rows are kept once the folder may be written to")
    with Keeper(file=file, start=start) as daemon:
        judge(lists(rows_of(1002, 1003)) and daemon.said_is(), "a file of the daemon's own user is believed")


def full_devices_are_said():
    """On a device of 16 KiB that something else fills, with a page of 4 KiB for rows."""
    if not os.environ["own_namespaces"]:
        print("a full device is not tried: that wants root, unshare and ip")
        return
    device, file = f"{WORK}/device", f"{WORK}/device/rows"
    os.mkdir(device)
    is_right = [finished(["mount", "-t", "tmpfs", "-o", "size=16k", "tmpfs", device]).returncode == 0]
    rows, said = rows_of(*range(1001, 1057)), [fails_by("No space left on device (os error 28)", file)]
    with Keeper(file=file) as daemon:
        is_right += [sets_all(1001) and keeps(rows[:1], file)]
        finished(["sh", "-c", f"cat /dev/zero > {device}/filler"], stderr=subprocess.DEVNULL)
        is_right += [sets_all(*range(1002, 1021)) and sets_at_once(daemon, *range(1021, 1041)) and daemon.said_is(*said)]
        is_right += [keeps(rows[:len(lines_left(read(file)))], file)]
        os.remove(f"{device}/filler")
        is_right += [sets_at_once(daemon, *range(1041, 1057)) and keeps(rows, file) and daemon.said_is(*said, goes_well(file))]
    judge(all(is_right), "a full device is said once, and rows are kept once there is room")


# ---- rows whose programs have gone

# KEEPCHECK-1 KEEPCHECK-2
# Of rows of this host on tcp, udp, tcp6 and udp6 those are left out, and said, at whose port nobody answers a call; whoever
# answers anything stays, and so does who is not asked. The ports are 78 times 256 and 60 to 67.
def programs_that_are_gone_are_left_out():
    rows = ["1001 1 tcp 127.0.0.1.78.60 superuser", "1002 1 tcp 0.0.0.0.78.61 superuser", "1005 1 udp 127.0.0.1.78.63 unknown",
            "1006 1 udp 0.0.0.0.78.64 unknown", "1009 1 tcp6 ::1.78.66 superuser", "1010 1 udp6 ::.78.67 superuser",
            "1013 1 local /run/nobody superuser", "1014 1 tcp 192.0.2.77.8.1 superuser", "1015 1 udp 192.0.2.77.8.1 superuser"]
    gone = ["1003 1 tcp 127.0.0.1.78.62 superuser", "1004 1 tcp 127.0.0.1.78.68 superuser", "1007 1 udp 127.0.0.1.78.65 unknown",
            "1008 1 udp 0.0.0.0.78.68 unknown", "1011 1 tcp6 ::.78.68 1000", "1012 1 udp6 ::1.78.68 1000"]
    write(FILE, lines_for(sorted(rows + gone)))
    answering = [f"{it}:{port}" for port, it in enumerate(
        ("tcp-garbage", "tcp-null", "tcp-silent", "udp-garbage", "udp-null", "udp-silent", "tcp6-null", "udp6-null"), 20028)]
    with Background("answers", ["python3", "-B", "tests/answers.py", *answering]):
        begin = time.monotonic()
        with Keeper() as daemon:
            unasked = time.monotonic() - begin
            judge(lists(sorted(rows + gone)) and daemon.said_is(), "no kept row is asked without --keep-check")
        begin = time.monotonic()
        with Keeper("--keep-check") as daemon:
            judge(time.monotonic() - begin < 2.5 + 10 * unasked, "kept rows are asked within two seconds")
            judge(lists(rows), "kept rows at whose ports nobody answers are left out")
            said = sorted(it for it in daemon.said().splitlines() if "listening" not in it)
            wanted = (f"rpcbind: {FILE}: {' '.join(it.split()[:3])}: nobody answers" for it in gone)
            judge(same(lines(*wanted), lines(*said), "what the daemon said"), "kept rows at whose ports nobody answers are said")


# Those that take longest come first.
if __name__ == "__main__":
    run_named(long_journals_are_read, most_rows_are_kept, other_lines_are_refused, long_files_are_refused, files_of_others_are_refused,
              programs_that_are_gone_are_left_out, torn_lines_are_left_out, changes_are_lines, rows_are_kept, files_without_room_stay,
              what_is_in_the_way_of_a_new_file_stays, changes_alone_are_written, changes_are_kept_before_replies,
              rows_of_others_are_kept, other_starts_leave_the_file, rows_that_cannot_be_set_are_left_out,
              exchanged_files_are_written_anew, one_daemon_has_the_file, folders_may_come_later, closed_folders_are_said,
              full_devices_are_said)
