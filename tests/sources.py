"""What the scripts beside this one read of crates.txt, of specs and of source."""

import re
from pathlib import Path

ROOT = Path(__file__).resolve().parent.parent

TAG = r"[A-Z][A-Z0-9]*-[0-9]+"
TAGS = re.compile(rf"({TAG}(?:,? {TAG})*)(?::.*)?")
NAME = r"[A-Za-z_]\w*"
USE = re.compile(r"\s*(?:ghost |pub )?use Rattle\.(\w+)\.specs\.([\w.]+?)(?:\.\{(.*)\})?(?: as (\w+))?;?")
DEFINITION = re.compile(r"(?!pub mod|pub use)(?:[a-z]+ )*pub (?:record |data )?([^\s:({]+)")
FUNCTION = re.compile(rf"(\s*)(?:pub(?:\([a-z]+\))? )?(?:(?:final|const|unsafe) )*fn ({NAME})")
CLAUSE = re.compile(r"\s*(?:(requires|ensures)|ghost (?!use)\w+)\b(.*)")


def read_plan():
    """The rooms of crates.txt, each with its crates."""
    rooms = []
    for line in (ROOT / "crates.txt").read_text().splitlines():
        if line.startswith("# ---- "):
            rooms.append((line.removeprefix("# ---- "), []))
        elif found := re.match(rf"({NAME}):", line):
            rooms[-1][1].append(found[1])
    return rooms


ROOMS = read_plan()
CRATES = [crate for _, crates in ROOMS for crate in crates]


def tags_in(comment):
    """The tags that begin a comment."""
    found = TAGS.fullmatch(comment)
    return re.findall(TAG, found[1]) if found else []


def imports(line):
    """The names that a `use` brings, each with its crate and `File.name`."""
    if not (found := USE.fullmatch(line)):
        return {}
    crate, path, names, alias = found.groups()
    if names is None:
        path, _, names = path.rpartition(".")
        names = f"{names} as {alias}" if alias else names
    pairs = (name.partition(" as ") for name in names.split(", "))
    return {alias or name: (crate, f"{path}.{name}") for name, _, alias in pairs}


def cited(text, names):
    """The definitions that a text names, by what their names are there."""
    words = set(re.findall(r"[^\s(){},;]+", text))
    return {names[word] for word in words | {word.partition(".")[0] for word in words} if word in names}


def owner_of(line):
    """The type, that of an impl, or the trait that a line of source begins; `None` if it begins none."""
    found = re.match(r"(?:pub(?:\([a-z]+\))? )?(?:unsafe )?(?:impl|struct|enum|trait)\b(.*)", line)
    words = re.sub(r"^\s*<[^>]*>+", "", found[1]).split(" for ")[-1] if found else ""
    found = re.match(rf"\s*(?:\w+::)*({NAME})", words)
    return found[1] if found else None


def differences(document, made, script):
    """Whether a document is as a script makes it, and if not the first line that is another one."""
    old, new = document.read_text().splitlines() if document.exists() else [], made.splitlines()
    if old != new:
        at = next((n for n, (a, b) in enumerate(zip(old, new)) if a != b), min(len(old), len(new)))
        line = new[at] if at < len(new) else "(nothing)"
        path = document.relative_to(ROOT)
        yield f"{path}:{at + 1}: this is not what the sources make; tests/{script} writes: {line}"
