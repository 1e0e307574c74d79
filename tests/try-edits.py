#!/usr/bin/env -S python3 -B
"""Tries the edits crates/NAME/refused/*.edit, after `rt ci`: the prover must refuse each. With names it tries those of these
crates alone, and with --anew also what it refused before. The last line is 'N passed, M failed'.

An edit is written as one of must-fail/, which `rt` describes, and changes src/ alone. It may have a line '# by FUNCTION':
the function that must be refused, by its path below the crate, if that is not the first one whose body it changes.

Several edits of a crate are tried by one check, over the libraries that stand in crates/*/out/rlib: each changes the bodies
of other functions, whose contracts stay, so none changes what is to be proved of the others'. The check proves the edited
functions with what they call (`rattle check --only`), and takes what it can't prove by its contract (`--allow-holes`). An
edit is refused if the prover names goals or answers of its own function that are not proved; if it names such of a function
that no edit changes, nothing of that check counts. What a check does not decide is tried in the next one, and in the end
alone, without holes, as is from the start what changes more than bodies: then all that the function calls must be proved.

What was refused is kept on this machine, where `rt ci` keeps its own work, under a sum of all that it was tried on. As many
crates are worked on side by side as RT_JOBS says.
"""

import concurrent.futures, dataclasses, fcntl, functools, glob, hashlib, os, re, shutil, signal, subprocess, sys, tempfile
import threading, time

from kit import KIT, PARTS, below, files_of, read, read_uses, rlib, words_of

TICKS = os.sysconf("SC_CLK_TCK")
KEPT_DAYS = 30  # since it was last asked for
RUNNING = set()  # the checks

FUNCTION = re.compile(r"( *)(?:pub(?:\([^)]*\))? )?(?:(?:const|final|unsafe) )*fn (\w+)")
OWNER = re.compile(r"(?:pub(?:\([^)]*\))? )?(?:impl\b(?:<.*?>)? (?:.* for )?|trait )(\w+)")
TYPE = re.compile(r"^(?:pub(?:\([^)]*\))? )?(?:struct|enum|trait) (\w+)", re.M)
# What the prover says of a text that it cannot read, where an edit that only makes a statement false reads well.
NAMELESS = "is not in scope|has no field|is no name|operand is missing|expected the end|cannot continue"
UNREAD = re.compile(rf"^(?:\./)?(?:src|specs)/\S+: error: (?:(?!`)|`.*?`: .*(?:{NAMELESS}))|\berror\[[\w-]+\]", re.M)
GONE = re.compile(r"is not in scope|has no (?:field|`)|was not admitted")


# ---- crates


@functools.lru_cache(maxsize=None)
def kit_sum():
    """Of what judges: the kit, its prover and this file."""
    found = os.stat(f"{KIT}/bin/rattle")
    return repr((read(f"{KIT}/KIT-ID"), read(f"{KIT}/WHAT"), found.st_size, found.st_mtime_ns, read("tests/try-edits.py")))


def stand_of(uses, crate):
    """A sum of all that an edit of the crate is tried on. The format of a library holds the sums of its files."""
    texts = [(it, read(it)) for it in files_of(crate)]
    libraries = [(it, read(f"{rlib(it)}/format")) for it in below(uses, crate)]
    return hashlib.sha256(repr((kit_sum(), uses[crate], texts, libraries)).encode()).hexdigest()


# ---- edits


@dataclasses.dataclass
class Edit:
    path: str
    text: str
    lines: dict  # of each file the new lines, by their place
    functions: list  # whose bodies it changes
    judged: str  # the function that must be refused
    is_apart: bool  # whether it changes more than bodies

    @property
    def label(self):
        return f"{self.path.split('/')[1]}/{os.path.basename(self.path)}"


def module_of(path):
    return [it for it in path[len("src/") : -len(".rt")].split("/") if it not in ("lib", "main", "mod")]


@functools.lru_cache(maxsize=None)
def types_of(folder):
    """The path of each type of a crate: methods are named by it, wherever their `impl` stands."""
    files = [it[len(folder) + 1 :] for it in glob.glob(f"{folder}/src/**/*.rt", recursive=True)]
    return {name: [*module_of(it), name] for it in files for name in TYPE.findall(read(f"{folder}/{it}"))}


def bodies_of(path, lines, types):
    """The functions of a file that `rt fmt` has laid out, each with the first and the last line of its body."""
    owner = module_of(path)
    for at, line in enumerate(lines):
        if found := OWNER.match(line):
            owner = types.get(found[1], [*module_of(path), found[1]])
        elif line == "}":
            owner = module_of(path)
        if not (found := FUNCTION.match(line)):
            continue
        indent, name = found.groups()
        if f"{indent}}}" in lines[at:]:
            last = lines.index(f"{indent}}}", at)
            begins = [it for it in range(at, last) if lines[it] == f"{indent}{{"]  # below its clauses
            begins += [it for it in range(at, last) if lines[it].endswith(" {")]
            yield "::".join([*owner, name]), begins[0] + 1 if begins else last, last


def apply_pairs(text, folder):
    """The files that an edit changes, as they are and as it makes them, and the function that it names."""
    was, made, path, old, named = {}, {}, None, None, None
    for line in text.split("\n"):
        if line.startswith("file: "):
            path = line[len("file: ") :].strip()
            if not re.fullmatch(r"src/[\w/]+\.rt", path):
                raise ValueError(f"{path} is no file of src/")
        elif line.startswith("# by "):
            named = line[len("# by ") :].strip()
        elif line.startswith("old: "):
            old = line[len("old: ") :]
        elif line.startswith("new:"):
            if not path or not old:
                raise ValueError("a line 'new:' stands before 'file:' or 'old:'")
            text = made.setdefault(path, was.setdefault(path, read(f"{folder}/{path}")))
            if text.count(old) != 1:
                raise ValueError(f"an 'old:' text is in {path} {text.count(old)} times, and not once")
            made[path] = text.replace(old, line[len("new:") :].removeprefix(" "))
            old = None
    return was, made, named


def read_edit(path):
    text, folder = read(path), os.path.dirname(os.path.dirname(path))
    was, made, named = apply_pairs(text, folder)
    lines, functions, is_apart = {}, [], False
    for file, text_was in was.items():
        before, after = text_was.split("\n"), made[file].split("\n")
        lines[file] = {at: new for at, (old, new) in enumerate(zip(before, after)) if old != new}
        bodies = list(bodies_of(file, before, types_of(folder)))
        for at in lines[file]:
            inside = [name for name, first, last in bodies if first <= at < last]
            functions += inside
            is_apart = is_apart or not inside
    if not any(lines.values()):
        raise ValueError("it changes nothing")
    if not named and not functions:
        raise ValueError("it changes no body, and no line '# by FUNCTION' says which function must be refused")
    return Edit(path, text, lines, list(dict.fromkeys(functions)), named or functions[0], is_apart)


# ---- checks


@dataclasses.dataclass
class Said:
    lines: list
    seconds: dict  # of each function that was proved or tried: processor seconds
    taken: float  # by the whole check

    @property
    def is_whole(self):
        """Whether the check came to its end, and could read all texts."""
        return self.lines[-1].startswith("only=") and not UNREAD.search("\n".join(self.lines))

    def verdicts(self, crate):
        """What the prover says of each function and closure."""
        return re.findall(rf"^fn {crate}::(\S+): (.*)", "\n".join(self.lines), re.M)

    def reason(self, function):
        """The first answer of the function that the prover refuses, or one that names what is gone if there is no other."""
        proofs = f"proofs/{function.replace('::', '/')}/"
        refused = [it for it in self.lines if proofs in it.partition(": error")[0] and ": error" in it]
        refused.sort(key=lambda it: bool(GONE.search(it)))
        return refused[0].removeprefix("./") if refused else ""


def owner_of(function):
    """The function that a closure stands in, or else the function itself."""
    return re.sub(r"^((?:\w+::)*)fn::(\w+)::.*", r"\1\2", function)


def fails_itself(crate, function, line):
    """Whether it is said of a function that goals or answers of its own are not proved."""
    own = f"`Rattle.{crate}.proofs.{function.replace('::', '.')}."
    stands_on = re.findall(r"it stands on (`.*?`), which antt refuses", line)
    return line == "not proved" or "`search` did not prove" in line or any(it.startswith(own) for it in stands_on)


def processor_seconds(process):
    """What a process has taken, with its children that have ended."""
    fields = read(f"/proc/{process}/stat").rpartition(") ")[2].split()
    return sum(map(int, fields[11:15])) / TICKS


def furnish(room, crate, batch):
    """Makes a copy of the crate with the edits in it."""
    for part in PARTS:
        if os.path.isdir(f"crates/{crate}/{part}"):
            shutil.copytree(f"crates/{crate}/{part}", f"{room}/{part}")
    for edit in batch:
        for path, changed in edit.lines.items():
            lines = read(f"{room}/{path}").split("\n")
            for at, line in changed.items():
                lines[at] = line
            with open(f"{room}/{path}", "w", encoding="utf-8") as file:
                file.write("\n".join(lines))


def check(uses, crate, batch, kept):
    """Checks the functions of edits, all of which are in the text."""
    with tempfile.TemporaryDirectory(prefix="try-edits-") as room:
        furnish(room, crate, batch)
        words = [f"{KIT}/bin/rattle", "check", *words_of(uses, crate), "--incremental", kept, "--progress"]
        words += [word for edit in batch for word in ("--only", edit.judged)]
        words += ["--allow-holes"] if len(batch) > 1 else []
        how = {"stdin": subprocess.DEVNULL, "stdout": subprocess.PIPE, "stderr": subprocess.STDOUT}
        lines, seconds, before = [], {}, 0
        with subprocess.Popen(words, cwd=room, **how, text=True, errors="replace") as process:
            RUNNING.add(process)
            for line in process.stdout:
                lines.append(line.rstrip("\n"))
                if found := re.match(r"checked (\S+), \d+ of", line):
                    now = processor_seconds(process.pid)
                    seconds[found[1]], before = now - before, now
            RUNNING.discard(process)
            _, process.returncode, usage = os.wait4(process.pid, 0)
        return Said(lines or [""], seconds, usage.ru_utime + usage.ru_stime)


def judge_batch(crate, batch, said):
    """Of each edit that the prover refuses what it says."""
    edited = {it for edit in batch for it in (*edit.functions, edit.judged)}
    failing = {owner_of(it): line for it, line in said.verdicts(crate) if fails_itself(crate, it, line)}
    if not said.is_whole or not edited.issuperset(failing):
        return {}
    return {it.label: describe(crate, it, said, failing[it.judged]) for it in batch if it.judged in failing}


def judge_alone(crate, edit, said):
    """Whether the prover refused the edit, and what it said."""
    lines = [line for it, line in said.verdicts(crate) if owner_of(it) == edit.judged]
    if not said.is_whole:
        return False, next((it for it in said.lines if UNREAD.search(it)), said.lines[-1])
    if not lines:
        return False, f"there is no function {edit.judged}"
    callees = [it for line in lines for it in re.findall(r"it calls `(\S+?)`", line) if "::fn::" not in it]
    if callees:
        return False, f"the prover refuses {callees[0]}, which a line '# by FUNCTION' may name"
    refused = [it for it in lines if it.startswith(("not proved", "no proof"))]
    return bool(refused), describe(crate, edit, said, refused[0]) if refused else lines[0]


def describe(crate, edit, said, line):
    goals, reason = re.search(r"`search` did not prove ([^;]*)", line), said.reason(edit.judged)
    why = goals[1] if goals else reason or line
    if GONE.search(why):
        why = f"only because a proof file names what the edit takes away, so change a value and keep the names: {why}"
    return f"refused, as it must be, in {said.seconds.get(f'{crate}::{edit.judged}', 0):.0f} s: {why}"[:240]


def next_batch(waiting):
    """The first edit, and those that go with it."""
    if waiting[0].is_apart:
        return waiting[:1]
    batch, taken = [], set()
    for edit in waiting:
        if not edit.is_apart and taken.isdisjoint(edit.functions):
            batch.append(edit)
            taken.update(edit.functions)
    return batch


def try_edits(uses, crate, edits, tell):
    """Tries edits of a crate, and hands each to `tell`, with whether it is refused and what was said. The seconds of all."""
    taken = 0
    with tempfile.TemporaryDirectory(prefix="try-edits-kept-") as kept:
        waiting = sorted(edits, key=lambda it: it.is_apart)
        while waiting:
            batch = next_batch(waiting)
            said = check(uses, crate, batch, kept)
            taken += said.taken
            if len(batch) == 1:
                tell(batch[0], *judge_alone(crate, batch[0], said))
                settled = batch
            else:
                told = judge_batch(crate, batch, said)
                settled = [it for it in batch if it.label in told]
                for edit in settled:
                    tell(edit, True, told[edit.label])
            for edit in [] if settled else batch:
                edit.is_apart = True
            waiting = sorted((it for it in waiting if it not in settled), key=lambda it: it.is_apart)
    return taken


# ---- all of them


class Store:
    """What was refused on this machine: beside what `rt ci` keeps. Where that is not, nothing is kept."""

    def __init__(self, is_anew):
        own = f"{os.path.dirname(KIT)}/rattle-kept"
        self.at = f"{own}/rpcbind-edits" if os.path.isdir(own) and os.stat(own).st_uid == os.geteuid() else None
        self.is_anew = is_anew
        if self.at:
            os.makedirs(self.at, 0o700, exist_ok=True)
            for it in os.scandir(self.at):
                if it.stat().st_mtime < time.time() - 86400 * KEPT_DAYS:
                    os.unlink(it.path)

    def place(self, stand, edit):
        return f"{self.at}/{hashlib.sha256(repr((stand, edit.label, edit.text)).encode()).hexdigest()}"

    def knows(self, stand, edit):
        if not self.at or self.is_anew or not os.path.isfile(self.place(stand, edit)):
            return False
        os.utime(self.place(stand, edit))
        return True

    def keep(self, stand, edit):
        if self.at:
            open(self.place(stand, edit), "w").close()


class Count:
    """What has passed and failed of all crates, and the lines that say so."""

    def __init__(self, crates):
        self.passed, self.failed, self.done, self.crates, self.lock = 0, 0, 0, crates, threading.Lock()
        self.loops = []  # what the fixed loop took beside them

    def tell(self, is_refused, line):
        with self.lock:
            self.passed += is_refused
            self.failed += not is_refused
            print(line, flush=True)

    def end(self, line, loop):
        with self.lock:
            self.done += 1
            self.loops.append(loop)
            print(f"{line}: {self.done} of {self.crates} crates", flush=True)


def try_crate(uses, crate, store, count):
    edits, begun = [], time.monotonic()
    for path in sorted(glob.glob(f"crates/{crate}/refused/*.edit")):
        try:
            edits.append(read_edit(path))
        except (OSError, ValueError) as error:
            count.tell(False, f"{path}: BAD EDIT: {error}")
    lacking = [it for it in below(uses, crate) if not os.path.isfile(f"{rlib(it)}/format")]
    if lacking:
        for edit in edits:
            count.tell(False, f"{edit.label}: NOT TRIED: crates/{lacking[0]}/out has no library")
        return
    stand = stand_of(uses, crate)
    known = [it for it in edits if store.knows(stand, it)]
    for edit in known:
        count.tell(True, f"{edit.label}: refused by an earlier run on this machine")

    def tell(edit, is_refused, why):
        count.tell(is_refused, f"{edit.label}: {'' if is_refused else 'NOT REFUSED: '}{why}")
        if is_refused and stand_of(uses, crate) == stand:
            store.keep(stand, edit)

    taken = try_edits(uses, crate, [it for it in edits if it not in known], tell)
    loop = float(subprocess.check_output([sys.executable, "tests/fixed-loop.py"]))
    took = f"in {time.monotonic() - begun:.0f} s ({taken:.0f} processor seconds)"
    count.end(f"{crate}: its {len(edits)} edits are tried, {took}", loop)


def stop(room):
    """Ends all checks at a signal, and leaves nothing behind."""
    for process in list(RUNNING):
        process.kill()
    shutil.rmtree(room, ignore_errors=True)
    os._exit(1)


def try_crates(uses, crates, is_anew):
    store, count = Store(is_anew), Count(len(crates))
    with concurrent.futures.ThreadPoolExecutor(int(os.environ.get("RT_JOBS") or 1)) as pool:
        for it in [pool.submit(try_crate, uses, crate, store, count) for crate in crates]:
            it.result()
    if count.loops:
        least, most, mean = min(count.loops), max(count.loops), sum(count.loops) / len(count.loops)
        print(f"a fixed loop took {least:.2f} to {most:.2f} processor seconds, {mean:.2f} on average")
    print(f"{count.passed} passed, {count.failed} failed")
    return count.failed > 0


def main():
    os.chdir(os.path.dirname(os.path.abspath(__file__)) + "/..")
    uses, words = read_uses(), [it for it in sys.argv[1:] if it != "--anew"]
    crates = [it for it in words or uses if glob.glob(f"crates/{it}/refused/*.edit")]
    crates.sort(key=lambda it: -sum(map(os.path.getsize, files_of(it))))
    # No `rt` changes a library meanwhile.
    folders = [os.open(f"crates/{it}", os.O_RDONLY) for it in uses]
    for folder in folders:
        fcntl.flock(folder, fcntl.LOCK_SH)
    with tempfile.TemporaryDirectory(prefix="try-edits-") as room:
        tempfile.tempdir = room
        for number in (signal.SIGINT, signal.SIGTERM, signal.SIGHUP):
            signal.signal(number, lambda *_: stop(room))
        return try_crates(uses, crates, "--anew" in sys.argv)


if __name__ == "__main__":
    sys.exit(main())
