#!/usr/bin/env -S python3 -B
"""Makes docs/BELIEVED.md: the definitions that the promises cite, and all else that a reader of them must trust.

The promises are the headline, a contract of code, and the laws of rb_promises and rb_engine but for worked examples. What
their contracts name is followed through specs/ and through the types of src/, by names: no proof is run. With --check
nothing is written; a line says what is wrong: a name of this repository that stands nowhere, or a document that is not what
the sources make. The status is 1 then.
"""
import re
import sys
from collections import defaultdict
from typing import NamedTuple

from sources import CLAUSE, CRATES, FUNCTION, NAME, ROOMS, ROOT, cited, differences, imports, tags_in

BELIEVED = ROOT / "docs" / "BELIEVED.md"
AXIOMS = ROOT / "tests" / "axioms"  # by tests/list-axioms.sh
PROMISERS = ("rb_promises", "rb_engine")
HEADLINE = "serve_events"
PAGE = "rb_promises", "Answers.Answers"
# What a reader of replies and sessions must believe: this relation of events, outputs and what passed with them. It names no step of
# the model and no function that answers, so nothing is left out of the count: what they are is what the law of runs says of them.
RUNS = "rb_promises", "Accounts.Passed"
# And with closings, deadlines and forwarded calls: what a run's events and outputs are promised to be, in the same way.
WHOLE = "rb_promises", "Headline.IsServed"

# A definition begins at the margin, or in a block of definitions; a field of a record is `pub NAME :`.
AT_MARGIN = re.compile(r"(?!pub mod|pub use|use |mod )(?:[a-z]+ )*(?:pub|abbrev|unfoldable) (?:record |data )?([^\s:({]+)")
IN_BLOCK = re.compile(r"\s+(?:(?:abbrev|unfoldable)(?: pub)?|pub (?:record|data)) ([^\s:({]+)")
FIELD = re.compile(r"^\s+pub [^\s:]+(?= )")  # the name of one
TYPE = re.compile(rf"(?:pub(?:\([a-z]+\))? )?(?:struct|enum) ({NAME})")
BRINGS = re.compile(r"^(?:pub )?use (crate|rb_\w+)(?:::\w+)*::(\{[^;]*\}|\w+);", re.MULTILINE)

HEAD = """\
# What must be believed

tests/make-believed.py makes this list of the sources, and the gate compares it: a change that adds to what must be
believed shows here. First come the definitions that the promises cite, by crate: that they say what the standards say is
for a reader to judge. The promises are the headline and the laws of rb_promises and rb_engine. A star marks what the page
of RFC 1833 cites, rb_promises/specs/Answers.antt. Then comes what else is trusted.
docs/CLAIMS.md says in a sentence what each kind means.
"""


class Item(NamedTuple):
    """A definition, or a type of the code."""

    crate: str
    path: str  # below the crate's folder
    line: int
    name: str
    is_type: bool
    tags: tuple
    lines: list  # its own


class Sources:
    def __init__(self):
        self.items, self.cites, self.promises = {}, defaultdict(set), {}
        self.again = {}  # what a file of specs has by `pub use`, and whose it is
        self.types = defaultdict(dict)  # by name and crate, the key of a type of the code
        for crate in CRATES:
            for file in sorted((ROOT / "crates" / crate).glob("src/**/*.rt")):
                self.read_types(crate, file)
        for crate in CRATES:
            for file in sorted((ROOT / "crates" / crate).glob("specs/**/*.antt")):
                self.read_specs(crate, file)
        for crate in PROMISERS:
            for file in sorted((ROOT / "crates" / crate).glob("src/**/*.rt")):
                self.read_laws(crate, file)

    def read_types(self, crate, file):
        """Types of the code, each with those of its fields."""
        source, path, key = file.read_text(), str(file.relative_to(ROOT / "crates" / crate)), None
        lines = source.splitlines()
        brought = {found[1]: crate for line in lines if (found := TYPE.match(line))}
        for found in BRINGS.finditer(source):
            brought |= {name: crate if found[1] == "crate" else found[1] for name in re.findall(NAME, found[2])}
        for number, line in enumerate(lines, 1):
            if found := TYPE.match(line):
                key = (crate, f"{file.stem}:{found[1]}")
                self.items[key] = Item(crate, path, number, found[1], True, (), [])
                self.types[found[1]][crate] = key
            if key and not line.lstrip().startswith(("//", "#[")):
                self.items[key].lines.append(line)
                words = set(re.findall(r"\b[A-Z]\w*[a-z]\w*", line))
                self.cites[key] |= {(brought[word], f"declared.{word}") for word in words & set(brought)}
            if line.startswith("}") or line.endswith(";") and not line.startswith(" "):
                key = None

    def read_specs(self, crate, file):
        path, lines = str(file.relative_to(ROOT / "crates" / crate)), file.read_text().splitlines()
        names, texts, key, tags = {}, defaultdict(list), None, []
        for number, line in enumerate(lines, 1):
            names.update(imports(line))
            if line.startswith("pub use "):
                self.again |= {(crate, f"{file.stem}.{name}"): it for name, it in imports(line).items()}
            found = AT_MARGIN.match(line) or IN_BLOCK.match(line)
            if line.startswith("-- "):
                tags += tags_in(line[3:])
                continue
            if found and "." not in found[1]:
                key = (crate, f"{file.stem}.{found[1]}")
                self.items.setdefault(key, Item(crate, path, number, found[1], False, tuple(dict.fromkeys(tags)), texts[key]))
                names[found[1]] = key
            if key and line.strip() and not line.startswith(("use ", "pub use ")):
                texts[key].append(line)
            tags = []
        for key, text in texts.items():
            self.cites[key] |= named("\n".join(FIELD.sub("", line).partition(" -- ")[0] for line in text), names) - {key}

    def read_laws(self, crate, file):
        names, law, told, depth = {}, None, set(), 0
        for line in file.read_text().splitlines():
            names.update(imports(line))
            if found := FUNCTION.match(line):
                is_promise = line.startswith(f"pub fn {found[2]}()") or found[2] == HEADLINE
                law, told = found[2] if is_promise else None, set()
            clause = CLAUSE.fullmatch(line)
            if law and (clause or depth):
                text = line if depth else clause[2]
                depth += text.count("{") - text.count("}")
                told |= named(text, names)
            elif law and line == ("{" if law == HEADLINE else "{}") and not law.startswith("worked_"):
                self.promises[law] = told

    def key_of(self, crate, path):
        """The definition or the type that a path of `use` means; `None` if it is the kit's, or stands nowhere."""
        if crate not in CRATES:
            return None
        words = path.split(".")
        if words[0] == "declared":
            return next((it for word in reversed(words) if (it := self.types.get(word, {}).get(crate))), None)
        for end in range(len(words), 1, -1):
            key = (crate, ".".join(words[end - 2 : end]))
            if key in self.items:
                return key
            if key in self.again:
                return self.key_of(*self.again[key])
        return None

    def reached(self, roots):
        """All that these names reach, and the names that are the kit's, or of ours and stand nowhere."""
        found, others, waiting = set(), set(), list(roots)
        while waiting:
            crate, path = waiting.pop()
            key = self.key_of(crate, path)
            if key is None:
                others.add((crate, path))
            elif key not in found:
                found.add(key)
                waiting += self.cites[key]
        return found, others


def named(text, names):
    """The definitions that a text names; those with operators for names too."""
    found = cited(text, names)
    for name in names:
        if "◌" in name and (name.strip("◌") in text.split() or ">>=" in name and re.search(r"\bdo\b", text)):
            found.add(names[name])
    return found


# ---- what else is trusted


def sources(*patterns):
    for crate in CRATES:
        for pattern in patterns:
            yield from sorted((ROOT / "crates" / crate).glob(pattern))


def places(pattern, *files):
    """The lines of source, comments left out, that a pattern is found in: each with its file and number."""
    for file in sources(*files):
        for number, line in enumerate(file.read_text().splitlines(), 1):
            code = line.partition("//" if file.suffix == ".rt" else "-- ")[0]
            if re.search(pattern, code):
                yield f"{file.relative_to(ROOT)}:{number}", code.strip()


def kit_crates():
    """The kit's crates that crates.txt names."""
    lines = [line.partition("#")[0] for line in (ROOT / "crates.txt").read_text().splitlines()]
    words = {word for line in lines for word in line.partition(":")[2].split()}
    return sorted(words - set(CRATES))


def c_functions():
    """The functions of C that our own code calls, by file."""
    for file in sources("src/**/*.rt"):
        text = "\n".join(line.partition("//")[0] for line in file.read_text().splitlines() if not line.startswith("ghost use"))
        if modules := re.findall(r"^use libc::\w+ as (\w+);", text, re.MULTILINE):
            calls = set(re.findall(rf"\b(?:{'|'.join(modules)})::([a-z_0-9]+)\(", text))
        else:
            calls = set(re.findall(r"\blibc::([a-z_0-9]+)\(", text))
        if calls:
            yield str(file.relative_to(ROOT)), sorted(calls)


def reached_functions():
    """The functions of C that the verdicts on the programs rest on, by crate of the kit."""
    found = defaultdict(list)
    for line in AXIOMS.read_text().splitlines():
        name, *programs = line.split()
        crate, _, function = name.partition("::")
        found[crate].append(f"`{function.rpartition('::')[2]}`" + (f" ({programs[0]})" if len(programs) == 1 else ""))
    return found


def bounds():
    """The files with functions that ask for a handle of HANDLES, each with the handles."""
    words = re.findall(r"\w+", (ROOT / "HANDLES").read_text().partition(":")[2])
    asked = defaultdict(set)
    for place, line in places(rf"(?:[:+]|impl) (?:{'|'.join(words)})\b", "src/**/*.rt"):
        if not line.startswith(("use ", "ghost ")):
            asked[place.rpartition(":")[0]] |= set(re.findall(rf"(?:[:+]|impl) ({'|'.join(words)})\b", line))
    return [f"{file}: {', '.join(sorted(handles))}" for file, handles in sorted(asked.items())]


def bullets(lines):
    lines = list(lines)
    return "\n".join(f"- {line}" for line in lines) if lines else "None."


def text(book):
    found, others = book.reached(set().union(*book.promises.values()))
    lost = sorted((crate, path) for crate, path in others if crate in CRATES)
    library = defaultdict(set)
    for crate, path in others - set(lost):
        module, _, name = path.rpartition(".")
        library[f"{crate}, {module}"].add(name)
    items = [book.items[key] for key in found]
    page = book.reached([PAGE])[0]
    on_page = [book.items[key] for key in page]
    runs = [book.items[key] for key in book.reached([RUNS])[0]]
    whole = [book.items[key] for key in book.reached([WHOLE])[0]]
    headline = [book.items[key] for key in book.reached(book.promises[HEADLINE])[0]]
    unsafe = list(places(r"\bunsafe\b", "src/**/*.rt"))
    externs = list(places(r"\bextern\b", "src/**/*.rt"))
    axioms = list(places(r"^\s*(?:pub )?axiom\b", "specs/**/*.antt", "proofs/**/*.antt"))
    by_hand = sorted(str(file.relative_to(ROOT)) for file in sources("proofs/**/Proof.antt"))
    calls, reached = list(c_functions()), reached_functions()

    places_on_page = {(it.crate, it.path, it.line) for it in on_page}

    def star(it):
        return "*" if (it.crate, it.path, it.line) in places_on_page else ""

    def count(items):
        types = sum(it.is_type for it in items)
        files = len({(it.crate, it.path) for it in items})
        lines = sum(len(it.lines) for it in items)
        return f"{len(items) - types:,} definitions and {types} types, {lines:,} lines in {files} files"

    out = [HEAD]
    out.append("| what | how much |\n|---|---|")
    out.append(f"| cited by the {len(book.promises)} promises | {count(items)} |")
    out.append(f"| cited by `{HEADLINE}` alone | {count(headline)} |")
    out.append(f"| cited by `{PAGE[1]}` alone, the page of RFC 1833 | {count(on_page)} |")
    out.append(f"| cited by `{RUNS[1]}` alone, the page of runs: replies, rows, statistics and sessions | {count(runs)} |")
    out.append(f"| cited by `{WHOLE[1]}` alone, that page and the page of ends: closings, deadlines and forwarded calls too | {count(whole)} |")
    out.append(f"| definitions of the toolchain's library and the kit | {sum(map(len, library.values()))} |")
    out.append(f"| axioms of the logic, in specs and proofs | {len(axioms)} |")
    out.append(f"| functions of C that the verdicts rest on | {sum(map(len, reached.values()))} |")
    out.append(f"| functions of C that our code calls itself | {len({name for _, names in calls for name in names})} |")
    out.append(f"| crates of the kit | {len(kit_crates())} |")
    out.append(f"| lines with `extern`, with `unsafe` | {len(externs)}, {len(unsafe)} |")
    out.append(f"| proofs by hand | {len(by_hand)} |\n")
    for room, crates in ROOMS:
        for crate in crates:
            mine = sorted((it for it in items if it.crate == crate), key=lambda it: (it.is_type, it.path, it.line))
            if mine:
                out.append(f"## {crate}: {count(mine)}\n")
                out.append(bullets(" ".join([f"`{it.name}` {it.path}:{it.line}{star(it)}", *it.tags]) for it in mine) + "\n")
    out.append("## Of the toolchain's library and the kit, by module\n\n"
               + bullets(f"{module}: " + " ".join(f"`{name}`" for name in sorted(names)) for module, names in sorted(library.items())) + "\n")
    out.append("## Axioms of the logic\n\n" + bullets(f"{place} `{line}`" for place, line in axioms) + "\n")
    out.append("## Functions of C that the verdicts on the programs rest on\n\nBy `rattle check --list-axioms`: each is taken to do "
               "what its contract in the kit says.\n\n" + bullets(f"{crate}: {', '.join(names)}" for crate, names in reached.items()) + "\n")
    out.append("## Functions of C that our code calls itself\n\n" + bullets(f"{file}: {', '.join(names)}" for file, names in calls) + "\n")
    out.append("## Crates of the kit\n\nTheir contracts, and those of the functions of C below them: "
               + ", ".join(kit_crates()) + ".\n")
    out.append("## Lines with `extern`\n\n" + bullets(f"{place} `{line}`" for place, line in externs) + "\n")
    out.append("## Lines with `unsafe`\n\n" + bullets(f"{place} `{line}`" for place, line in unsafe) + "\n")
    out.append("## Proofs by hand\n\n" + bullets(by_hand) + "\n")
    out.append("## Handles\n\nThe files whose functions may wait without an end (`Wait`) or ask for the network (`Net`).\n\n" + bullets(bounds()))
    return "\n".join(out) + "\n", [f"crates/{crate}: a promise reaches {path}, which stands nowhere" for crate, path in lost]


def main():
    book = Sources()
    known = {*book.items, *((crate, HEADLINE) for crate in PROMISERS if HEADLINE in book.promises)}
    for crate, name in ("rb_promises", HEADLINE), PAGE, RUNS, WHOLE:
        if (crate, name) not in known:
            sys.exit(f"tests/make-believed.py: there is no {name} in {crate}, which it asks for by name")
    made, faults = text(book)
    if sys.argv[1:] != ["--check"]:
        BELIEVED.write_text(made)
    faults += differences(BELIEVED, made, "make-believed.py")
    print("\n".join(faults), end="\n" if faults else "")
    return 1 if faults else 0


sys.exit(main())
