"""What the scripts beside this one know of the kit and of crates.txt."""

import glob, os, shutil

PARTS = "src", "specs", "proofs"
KIT = os.path.dirname(os.path.dirname(os.path.realpath(shutil.which("rt") or "rt")))


def read(path):
    with open(path, encoding="utf-8") as file:
        return file.read()


def read_uses(path="crates.txt"):
    """Of each crate what it stands on."""
    found = {}
    for line in read(path).split("\n"):
        name, colon, uses = line.partition("#")[0].partition(":")
        if colon:
            found[name.split()[0]] = uses.split()
    return found


def below(uses, crate):
    """The repository's crates below a crate, each after those that it stands on."""
    found = []
    for it in uses[crate]:
        if it in uses:
            found += [*below(uses, it), it]
    return list(dict.fromkeys(found))


def rlib(crate):
    return f"{os.getcwd()}/crates/{crate}/out/rlib/{crate}.rlib"


def words_of(uses, crate, jobs=1):
    """What `rt` hands to rattle for a check of the crate."""
    words = ["--crate-name", crate, "src/main.rt" if os.path.isfile(f"crates/{crate}/src/main.rt") else "src/lib.rt"]
    for it in ["std", *uses[crate]]:
        words += ["--extern", f"{it}={rlib(it) if it in uses else f'{KIT}/rlibs/{it}.rlib'}"]
    for folder in [f"{KIT}/rlibs", *(os.path.dirname(rlib(it)) for it in below(uses, crate))]:
        words += ["-L", f"dependency={folder}"]
    words += ["--antt-project", f"{KIT}/rattle/logic/antt-project.json", "--logic-built", f"{KIT}/logic_built"]
    return [*words, "--links", f"{crate}=", "--jobs", str(jobs)]


def files_of(crate):
    files = [it for part in PARTS for it in glob.glob(f"crates/{crate}/{part}/**", recursive=True)]
    return sorted(it for it in files if os.path.isfile(it))
