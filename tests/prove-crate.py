#!/usr/bin/env -S python3 -B
"""Proves a crate from nothing over the statements of those below it: `tests/prove-crate.py NAME JOBS`. It leaves its own
statements in crates/NAME/out/rlib, or its program in crates/NAME/out, and beside them a sum of all that the proof stands on:
while that stays, nothing is proved again."""

import hashlib, os, shutil, signal, subprocess, sys

from kit import KIT, below, files_of, read, read_uses, rlib, words_of


def stand_of(uses, crate):
    """A sum of all that its proof stands on. The format of a library holds the sums of its files."""
    texts = [(it, read(it)) for it in files_of(crate)]
    libraries = [read(f"{rlib(it)}/format") for it in below(uses, crate)]
    return hashlib.sha256(repr((read(f"{KIT}/KIT-ID"), read(f"{KIT}/WHAT"), uses[crate], texts, libraries)).encode()).hexdigest()


def run(crate, *words):
    """Runs a command in the crate's folder. If this process is ended, all that it started is."""
    child = subprocess.Popen(words, cwd=f"crates/{crate}", stdin=subprocess.DEVNULL, start_new_session=True)

    def end(*_):
        os.killpg(child.pid, signal.SIGKILL)
        os._exit(1)

    signal.signal(signal.SIGTERM, end)
    if status := child.wait():
        sys.exit(status if status > 0 else 1)


def build_library(uses, crate, jobs):
    run(crate, f"{KIT}/bin/rattle", "build", *words_of(uses, crate, jobs), "--statements", "-o", rlib(crate))


def build_program(uses, crate, jobs):
    tools = ["--toolchain", f"{KIT}/toolchain"]
    libraries = [f"{KIT}/c/libos_c.a", f"{KIT}/c/liblibc_c.a"]
    run(crate, f"{KIT}/bin/rattle", "build", *words_of(uses, crate, jobs), *tools, "-o", f"out/{crate}.o")
    run(crate, f"{KIT}/bin/rattle-link", "--target", "x86_64-unknown-linux-gnu", *tools, "-o", f"out/{crate}", f"out/{crate}.o", *libraries)
    run(crate, f"out/{crate}", "--version")


def main():
    if len(sys.argv) != 3:
        sys.exit("usage: tests/prove-crate.py NAME JOBS")
    os.chdir(os.path.dirname(os.path.abspath(__file__)) + "/..")
    crate, jobs = sys.argv[1:]
    uses = read_uses()
    is_program = os.path.isfile(f"crates/{crate}/src/main.rt")
    made = f"crates/{crate}/out/{crate}" if is_program else rlib(crate)
    kept, stand = f"{made}.sum", stand_of(uses, crate)
    if os.path.exists(made) and os.path.isfile(kept) and read(kept) == stand:
        print(f"{crate} is kept")
        return
    if not is_program:
        shutil.rmtree(os.path.dirname(made), ignore_errors=True)
    os.makedirs(os.path.dirname(made), exist_ok=True)
    (build_program if is_program else build_library)(uses, crate, jobs)
    with open(kept, "w", encoding="utf-8") as file:
        file.write(stand)


if __name__ == "__main__":
    main()
