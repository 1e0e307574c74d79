"""What scenarios over the built programs share: checks that are counted, processes in the background, and texts that are compared.
The environment has the paths of both programs, `RPCBIND` and `RPCINFO`, and of a folder, `WORK`, in which each scenario has one of
its name."""
import difflib
import itertools
import os
import subprocess
import sys
import time

RPCBIND, RPCINFO = os.environ["RPCBIND"], os.environ["RPCINFO"]
WORK = f"{os.environ['WORK']}/{sys.argv[1]}"
counts = {"passed": 0, "failed": 0}


class Unfit(Exception):
    """What a scenario cannot go on without; it is counted as a failed check."""


def judge(is_right, name):
    counts["passed" if is_right else "failed"] += 1
    if not is_right:
        print(f"failed: {name}", flush=True)


def same(wanted, got, what):
    """Whether two texts are the same. The first lines of a difference are printed."""
    texts = [it.splitlines() for it in (wanted, got)]
    for line in itertools.islice(difflib.unified_diff(*texts, f"{what}, wanted", f"{what}, got", lineterm=""), 20):
        print(line)
    return wanted == got


def lines(*texts):
    return "".join(f"{it}\n" for it in texts)


def read(path):
    with open(path, encoding="utf-8", newline="") as file:
        return file.read()


def write(path, text):
    with open(path, "w", encoding="utf-8") as file:
        file.write(text)


def finished(words, stdin=subprocess.DEVNULL, **more):
    """How a command ended, and what it wrote. Its status is 124 if it was not done within five minutes."""
    try:
        return subprocess.run(words, text=True, stdin=stdin, stdout=subprocess.PIPE, timeout=300, **more)
    except subprocess.TimeoutExpired:
        return subprocess.CompletedProcess(words, 124, "", "")


def ended_as(done, stdout="", stderr="", status=0):
    """Whether a command has ended so, and wrote this."""
    return all([same(str(status), str(done.returncode), f"the status of '{' '.join(done.args)}'"),
                same(stdout, done.stdout, "standard output"), same(stderr, done.stderr, "standard error")])


def asked(questions, where=(), **environment):
    """Questions of tests/ask.py, each with its answer, one a line; and what that tells which asks them from somewhere."""
    wanted = lines(*(it.strip() for it in questions.strip().splitlines()))
    told = subprocess.run([*where, "python3", "-B", "tests/ask.py"], input=wanted, text=True, stdout=subprocess.PIPE,
                          env={**os.environ, **environment}).stdout
    return wanted, told


def output_of(*words):
    """What a command writes, both to its output and to its errors."""
    return finished(words, stderr=subprocess.STDOUT).stdout


def is_within(seconds, holds):
    """Whether something holds at some time within this many seconds."""
    end = time.monotonic() + seconds
    while not holds():
        if time.monotonic() > end:
            return False
        time.sleep(0.05)
    return True


class Background:
    """A program in the background, of which a file has what it says. It listens once that is entered, and ends behind it."""

    def __init__(self, name, words, **more):
        self.path, self.words, self.more = f"{WORK}/{name}", words, more

    def said(self):
        with open(self.path, encoding="utf-8", errors="replace") as file:
            return file.read()

    def says(self, line, seconds=60):
        return is_within(seconds, lambda: line in self.said().splitlines())

    # A program with checks may take minutes, on a busy machine, for its memory and to set kept rows again.
    def __enter__(self):
        with open(self.path, "wb") as file:
            self.process = subprocess.Popen(self.words, stdin=subprocess.DEVNULL, stdout=file, stderr=file, **self.more)
        is_within(300, lambda: "listening" in self.said() or self.process.poll() is not None)
        if "listening" not in self.said():
            self.stop()
            print("what was started does not listen, and wrote at last:", *self.said().splitlines()[-5:], sep="\n    ")
            raise Unfit(" ".join(self.words))
        return self

    def stop(self):
        self.process.terminate()
        self.process.wait()

    def __exit__(self, *fault):
        self.stop()


def run_scenario(function):
    """Runs it, prints the counts, and gives the status."""
    try:
        function()
    except (Unfit, OSError) as what:
        judge(False, what)
    print(f"{counts['passed']} passed, {counts['failed']} failed")
    return counts["failed"] > 0


def run_named(*scenarios):
    """Runs the one that is named, or with --names prints the names of all."""
    if sys.argv[1] == "--names":
        print(*(it.__name__ for it in scenarios))
        sys.exit()
    os.mkdir(WORK)
    sys.exit(run_scenario({it.__name__: it for it in scenarios}[sys.argv[1]]))
