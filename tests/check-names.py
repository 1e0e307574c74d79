#!/usr/bin/env python3
"""Resolves the names that documents give: files, definitions, functions, rows, edits and tests.

A name in backquotes that looks like one of this repository (it has an underscore, a `::`, a slash, a capital letter inside,
or ends as a file) has to be one of it, or stand in tests/names-of-others. In docs/CLAIMS.md a name after 'By CRATE:' has
to stand in that crate. Code that a README shows of an example has to stand there. The picture of the crates has to be
that of crates.txt (tests/draw-crates.py). Documents that scripts make of the sources are left out.
Prints a line for each name that is nowhere; the last line is 'N passed, N failed', the status 1 if one failed.
"""
import re
import subprocess
import sys
from collections import defaultdict
from itertools import chain
from pathlib import Path

ROOT = Path(__file__).resolve().parent.parent
CRATES = sorted([p.parent.name for p in ROOT.glob("crates/*/src")] + [p.parent.name for p in ROOT.glob("tests/crates/*/lib.rs")])
MADE = ("RULES.md", "ANSWERS.md", "BELIEVED.md")
DOCUMENTS = [file for pattern in ("README.md", "docs/*.md", "crates/*/README.md", "tests/crates/*/README.md")
             for file in sorted(ROOT.glob(pattern)) if file.name not in MADE]
# A document whose code is that of another file, word for word.
SHOWN = {ROOT / "crates" / "rb_core" / "README.md": ROOT / "examples" / "embed" / "driver.rs"}
OTHERS = set((ROOT / "tests" / "names-of-others").read_text().split())

IDENTIFIER = r"[A-Za-z_][\w]*"


class Crate:
    """What one crate defines."""

    def __init__(self, name):
        folder = ROOT / "crates" / name
        self.definitions = {f.stem: spec_names(f.read_text()) for f in folder.glob("specs/**/*.antt")}
        self.functions = set()
        for file in chain(folder.glob("src/**/*.rt"), (ROOT / "tests" / "crates" / name).glob("*.rs")):
            self.functions |= source_names(file.read_text())
            self.functions |= {f"{file.stem}::{n}" for n in source_names(file.read_text())}
        self.edits = {f.stem for f in [*folder.glob("must-fail/*.edit"), *folder.glob("refused/*.edit")]}


def defined_in(line):
    """The name that a line of specs defines, or `None`."""
    if line.startswith(("use ", "pub use ")):
        return None
    found = re.match(r"(?:[a-z]+ )*pub (?:record |data )?([^\s:({]+)", line)
    return found[1] if found else None


def spec_names(text):
    """Names of definitions and of fields of one file of specs."""
    names = set()
    for line in text.splitlines():
        if line.startswith("use "):
            continue
        if name := defined_in(line):
            names.add(name)
        names |= set(re.findall(r"^\s+(?:pub )?([^\W\d]\w*)(?: [^\W\d]\w*)* :(?!:)", line))
    return names


def owner_of(line):
    """The type of the impl, or the trait, that a line of source begins; `None` if it begins none."""
    found = re.match(r"(?:pub(?:\([a-z]+\))? )?(?:unsafe )?(?:impl|trait)\b(.*)", line)
    words = re.sub(r"^\s*<[^>]*>+", "", found[1]).split(" for ")[-1] if found else ""
    found = re.match(rf"\s*(?:\w+::)*({IDENTIFIER})", words)
    return found[1] if found else None


def source_names(text):
    """Names that one source file defines; what an impl or a trait has is also `Type::name`."""
    names, owner = set(), None
    for line in text.splitlines():
        owner = owner_of(line) or (None if line.startswith("}") else owner)
        if found := re.search(rf"\b(?:fn|struct|enum|trait|type|const|static|mod|macro_rules!) ({IDENTIFIER})", line):
            names.add(found[1])
            if owner:
                names.add(f"{owner}::{found[1]}")
        if found := re.match(rf"\s+(?:pub(?:\([a-z]+\))? )?({IDENTIFIER})(?::|,|\(|\s*\{{|$)", line):
            names.add(found[1])
        names |= set(re.findall(rf"\b(?:ensures|requires|invariant) ({IDENTIFIER})", line))
        if found := re.match(r"(?:pub )?enum (\w+)", line) or re.match(r"(?:pub )?struct (\w+)", line):
            owner = found[1]
        elif owner and (found := re.match(rf"    (?:pub )?({IDENTIFIER})[,({{:]", line)):
            names |= {f"{owner}::{found[1]}", f"{owner}.{found[1]}"}
    return names


CRATE = {name: Crate(name) for name in CRATES}
# Rows and tests; a function of a script of tests may be one.
ROWS = {f.stem for f in ROOT.glob("tests/rows*/*.*")}
for glob, pattern in (("tests/crates/*/*.rs", r"#\[test\]\s*(?:#\[[^\n]*\]\s*)*fn (\w+)"),
                      ("tests/*.sh", r"^(\w+)\(\) \{"), ("tests/hostile/*.py", r"^def (\w+)")):
    for file in ROOT.glob(glob):
        ROWS |= set(re.findall(pattern, file.read_text(), re.MULTILINE))
ALL_FUNCTIONS = {n for c in CRATES for n in CRATE[c].functions}
ALL_DEFINITIONS = defaultdict(set)
for crate in CRATES:
    for file, names in CRATE[crate].definitions.items():
        ALL_DEFINITIONS[file] |= names
ALL_NAMES = ROWS | ALL_FUNCTIONS | {n for c in CRATES for n in CRATE[c].edits} | set(CRATES)
for file, names in ALL_DEFINITIONS.items():
    ALL_NAMES |= names | {file} | {f"{file}.{n}" for n in names}
FILES = {str(p.relative_to(ROOT)) for p in ROOT.rglob("*") if ".git" not in p.parts and "out" not in p.parts}


def is_file(name):
    """A path below the top, below crates/, or the end of one."""
    name = name.rstrip("/")
    pattern = re.compile(re.escape(name).replace(r"\*", "[^/]*") + "$")
    return any(pattern.fullmatch(f) or pattern.fullmatch(f.removeprefix("crates/")) or f.endswith("/" + name)
               for f in FILES)


def looks_like_ours(name):
    if re.search(r"[\s=<>{}\[\]|$@,]|NAME|/?out/|\.\.$|^\.\.", name) or name.startswith(("-", "/", "~", "$", "::")):
        return False
    return bool(re.search(r"_|::|/|[a-z][A-Z]", name) or re.search(r"\.(rt|rs|antt|md|sh|py|edit|events|txt)$", name)
                or re.fullmatch(r"[A-Z]\w*\.\w+", name))


def check_document(text):
    """A document: (line, name, whether it resolves)."""
    fenced = False
    for number, line in enumerate(text.splitlines(), 1):
        if line.startswith("```"):
            fenced = not fenced
        if fenced or line.startswith("    "):
            continue
        for name in re.findall(r"`([^`]+)`", line):
            name = name.removesuffix("()")
            if looks_like_ours(name) and name not in OTHERS:
                bare = name.lstrip(".")
                yield number, name, bare in ALL_NAMES or is_file(bare) or last_of(bare) in ALL_NAMES


def check_claims(text):
    """The contracts of docs/CLAIMS.md, each in the crate that is named with it: (line, name, whether it resolves).

    A definition that is named so may stand in any crate.
    """
    crate, defined = None, False
    for number, line in enumerate(text.splitlines(), 1):
        if re.match(r"  By ", line):
            crate, defined = None, False
        elif not line.startswith("  ") or line.startswith("- "):
            crate = None
            continue
        elif crate is None:
            continue
        for found in re.finditer(r"\b(rb_\w+|rpcbind|rpcinfo):(?= |$)|\bdefinitions?\b|;|`([^`]+)`", line):
            word, name = found[1], found[2]
            if word:
                crate = word
            if not name:
                defined = found[0].startswith("definition")
            elif defined:
                yield number, name, is_file(name) or any(name in names for names in ALL_DEFINITIONS.values())
            elif crate:
                yield number, f"{name}` in `{crate}", stands_in(name, crate)


def stands_in(name, crate):
    """A function, a clause or a definition of the crate."""
    definitions = set().union(*CRATE[crate].definitions.values()) if CRATE[crate].definitions else set()
    functions = CRATE[crate].functions
    return name in functions or last_of(name) in functions or name in definitions or name.split(".")[-1] in definitions


def last_of(name):
    """`Type::name` of a name with crates and modules in front."""
    return "::".join(name.split("::")[-2:])


def main():
    passed = failed = 0
    for document in DOCUMENTS:
        text = document.read_text()
        checks = [check_document, check_claims] if document.name == "CLAIMS.md" else [check_document]
        for line, name, holds in chain.from_iterable(check(text) for check in checks):
            passed += holds
            failed += not holds
            if not holds:
                print(f"{document.relative_to(ROOT)}:{line}: there is no `{name}`")
    for document, source in SHOWN.items():
        for shown in re.findall(r"^```rust\n(.*?)^```", document.read_text(), re.MULTILINE | re.DOTALL):
            holds = shown in source.read_text()
            passed += holds
            failed += not holds
            if not holds:
                print(f"{document.relative_to(ROOT)}: its code is not that of {source.relative_to(ROOT)}")
    drawn = subprocess.run([sys.executable, "-B", ROOT / "tests" / "draw-crates.py", "--check"], stderr=subprocess.PIPE, text=True)
    passed += drawn.returncode == 0
    failed += drawn.returncode != 0
    print(drawn.stderr, end="")
    print(f"{passed} passed, {failed} failed")
    return 1 if failed else 0


sys.exit(main())
