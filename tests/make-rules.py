#!/usr/bin/env -S python3 -B
"""Makes docs/RULES.md of what comments say of rules. With --check it writes nothing, and says what is wrong with them.

A rule's sentence stands once, after its tag, in the comment above the definition that says it best, or above a function
if no definition says it. The comments of its other definitions have the tag alone. A row begins its first comment with
its tags, a test (or a function of a script of tests) a comment right above it, and an edit its first line; an edit that
breaks no rule says why: `# no rule: REASON`. What nothing shows of a rule, and why, stands in tests/rules-not-shown.
Prints a line for each fault; the status is 1 if there is one.
"""
import re
import sys
from collections import defaultdict
from dataclasses import dataclass, field
from typing import NamedTuple

from sources import CLAUSE, CRATES, DEFINITION, FUNCTION, NAME, ROOMS, ROOT, TAG, cited, differences, imports, owner_of, tags_in

RULES = ROOT / "docs" / "RULES.md"
NOT_SHOWN = ROOT / "tests" / "rules-not-shown"
DOCUMENTS = ("*.md", "docs/*.md", "man/*", "crates/*/README.md", "tests/crates/*/README.md")
MOST_FUNCTIONS = 6  # of one rule

HEAD = """\
# Rules

The standards leave choices open: this file has what the daemon and its client do, by crate. tests/make-rules.py makes
it of the comments that have the sentences, and the gate compares; run it after a change. A definition is `File.name` of
the crate's specs. A function has one of them in its contract, or what uses it, and a type in its form or invariant. Rows
stand in tests/rows and tests/rows-rpcinfo, tests where it is said. An edit is a change of the code that breaks the rule,
and that the prover refuses. What is of another crate than its table's says so.

    grep -i '^|[^|]*|[^|]*WORD' docs/RULES.md | cut -d'|' -f2,3   # rules, by a word; then a line by its tag
    git grep -nw GETADDR-2                                        # then all that has the tag
    grep -rnw 'fn NAME' crates/CRATE/src                          # a function
"""
COLUMNS = ("tag", "rule", "definition", "function", "row or test", "edit")

SENTENCE = re.compile(rf"({TAG}): (.+)")
TEST = re.compile(rf"(?:(?:pub )?fn |def )?({NAME})\(")


class Place(NamedTuple):
    """Where a definition or a function stands. Places go in the order of crates.txt."""

    crate: int
    path: str
    line: int
    name: str


@dataclass
class Rule:
    """What is said of a rule, and where."""

    sentences: list = field(default_factory=list)  # each with its place
    definitions: list = field(default_factory=list)
    functions: set = field(default_factory=set)
    shown: list = field(default_factory=list)  # rows and tests, as the table names them
    edits: list = field(default_factory=list)  # each by its crate and its name
    files: list = field(default_factory=list)  # that name it


def comments(lines, mark, between=("\0",)):
    """The comments with tags: the number of the line below each, and its tags, each with its sentence or `None`.

    `mark` begins a line of a comment; lines that begin with `between` may stand between it and what it is of.
    """
    told, goes_on = [], False
    for number, line in enumerate([*lines, ""], 1):
        line = line.strip()
        found = re.fullmatch(rf"{mark}( .*|)", line)
        text = found[1].strip() if found else ""
        if not found:
            if told and not line.startswith(between):
                yield number, told
                told = []
            goes_on = False
        elif found := SENTENCE.fullmatch(text):
            told.append([found[1], found[2]])
            goes_on = True
        elif tags := tags_in(text):
            told += [[tag, None] for tag in tags]
            goes_on = False
        elif goes_on:
            told[-1][1] += " " + text


class Book:
    """The rules of the repository, the definitions that cite each other, and what is wrong with the comments."""

    def __init__(self):
        self.rules, self.faults = defaultdict(Rule), []
        # Of a definition, by its crate and `File.name`: definitions whose text, and functions whose contract names it.
        self.users, self.readers = defaultdict(set), defaultdict(set)
        self.laws = set()  # functions with an empty body
        for crate in CRATES:
            folder = ROOT / "crates" / crate
            for file in sorted(folder.glob("specs/**/*.antt")):
                self.read_specs(crate, file)
            for file in sorted(folder.glob("src/**/*.rt")):
                self.read_source(crate, file)
            for file in sorted([*folder.glob("must-fail/*.edit"), *folder.glob("refused/*.edit")]):
                self.read_edit(crate, file)
        for file in sorted([*ROOT.glob("tests/rows/*.events"), *ROOT.glob("tests/rows-rpcinfo/*.args")]):
            self.read_row(file)
        for pattern in ("tests/crates/*/*.rs", "tests/*.sh", "tests/*.py", "tests/hostile/*.py"):
            for file in sorted(ROOT.glob(pattern)):
                self.read_tests(file)
        reasons = (line for line in NOT_SHOWN.read_text().splitlines() if not line.startswith("#"))
        self.reasons = dict(line.split(": ", 1) for line in reasons)

    def fault(self, file, number, wrong):
        self.faults.append(f"{file.relative_to(ROOT)}:{number}: {wrong}")

    def of(self, tag, file):
        """The rule of a tag that the file names."""
        self.rules[tag].files.append(file.relative_to(ROOT))
        return self.rules[tag]

    def read_specs(self, crate, file):
        lines = file.read_text().splitlines()
        told = dict(comments(lines, "--", ("infix",)))
        names, texts, name = {}, defaultdict(list), None
        for number, line in enumerate(lines, 1):
            names.update(imports(line))
            if found := DEFINITION.match(line):
                name = f"{file.stem}.{found[1]}"
                names[found[1]] = (crate, name)
            for tag, sentence in told.get(number, ()):
                if not found:
                    self.fault(file, number, f"the comment of {tag} stands above no definition")
                    continue
                place = Place(CRATES.index(crate), str(file.relative_to(ROOT)), number, name)
                rule = self.of(tag, file)
                rule.definitions.append(place)
                rule.sentences += [(place, sentence)] if sentence else []
            if name and not line.startswith("--"):
                texts[crate, name].append(line)
        for user, text in texts.items():
            for definition in cited("\n".join(text), names):
                self.users[definition].add(user)

    def read_source(self, crate, file):
        lines, path = file.read_text().splitlines(), str(file.relative_to(ROOT))
        told = dict(comments(lines, "//", ("///", "#[")))
        names, own_names, owner, place, reader, depth = {}, {}, None, None, None, 0
        for number, line in enumerate(lines, 1):
            if owner_of(line) or line.startswith("}"):
                owner, own_names = owner_of(line), {}
            (own_names if line.startswith(" ") else names).update(imports(line))
            if found := FUNCTION.match(line):
                name = f"{owner}::{found[2]}" if owner and found[1] else found[2]
                place = Place(CRATES.index(crate), path, number, name)
            for tag, sentence in told.get(number, ()):
                if not found:
                    self.fault(file, number, f"the comment of {tag} stands above no function")
                    continue
                rule = self.of(tag, file)
                rule.functions.add(place)
                rule.sentences += [(place, sentence)] if sentence else []
            # A clause goes on until its braces are closed.
            clause = CLAUSE.fullmatch(line)
            if clause and not depth:
                reader = place if clause[1] else Place(CRATES.index(crate), path, number, f"type {owner}")
            if clause or depth:
                text = line if depth else clause[2]
                depth += text.count("{") - text.count("}")
                for definition in cited(text, names | own_names):
                    self.readers[definition].add(reader)
            elif line.strip() == "{}":
                self.laws.add(place)

    def read_edit(self, crate, file):
        first = file.read_text().partition("\n")[0]
        tags = tags_in(re.sub(r"^(#|rule:) ", "", first))
        if not tags and not first.startswith("# no rule: "):
            self.fault(file, 1, "it begins neither with `# TAG`, a rule that it breaks, nor with `# no rule: REASON`")
        for tag in tags:
            self.of(tag, file).edits.append((crate, file.stem))

    def read_row(self, file):
        comment = re.search(r"^# ([^(].*)", file.read_text(), re.MULTILINE)
        for tag in tags_in(comment[1]) if comment else ():
            self.of(tag, file).shown.append(f"`{file.stem}`")

    def read_tests(self, file):
        lines = file.read_text().splitlines()
        where = file.parent.name if file.suffix == ".rs" else file.relative_to(ROOT)
        mark, between = ("//", ("///", "#[")) if file.suffix == ".rs" else ("#", ("\0",))
        for number, told in comments(lines, mark, between):
            found = TEST.match(lines[number - 1]) if number <= len(lines) else None
            for tag, _ in told:
                if found:
                    self.of(tag, file).shown.append(f"`{found[1]}` ({where})")
                else:
                    self.fault(file, number, f"the comment of {tag} stands above no test")

    def functions_of(self, rule):
        """The functions with the tag, and those that have a definition of the rule in their contract; if none has but
        laws, also those that have what uses one.
        """
        near = {(CRATES[place.crate], place.name) for place in rule.definitions}
        seen, found = set(), set()
        while near and found <= self.laws:
            found = found.union(*(self.readers[it] for it in near))
            seen |= near
            near = set().union(*(self.users[it] for it in near)) - seen
        return rule.functions | found

    def line_of(self, tag):
        """The line of a rule in the table of its crate."""
        rule = self.rules[tag]
        home, sentence = rule.sentences[0]

        def names(places):
            places = sorted(places, key=lambda it: (it != home, it not in rule.functions, it.crate != home.crate, it))
            told = [f"`{it.name}`" + (f" of {CRATES[it.crate]}" if it.crate != home.crate else "") for it in places]
            return list(dict.fromkeys(told))

        functions = names(self.functions_of(rule))
        if len(functions) > MOST_FUNCTIONS:
            functions[MOST_FUNCTIONS - 1 :] = [f"and {len(functions) - MOST_FUNCTIONS + 1} more"]
        edits = [f"`{name}`" + (f" of {crate}" if crate != CRATES[home.crate] else "") for crate, name in rule.edits]
        cells = (names(rule.definitions), functions, rule.shown, edits)
        definitions, functions, shown, edits = (", ".join(cell) or "-" for cell in cells)
        shown += f" ({self.reasons[tag]})" if tag in self.reasons else ""
        return [tag, sentence, definitions, functions, shown, edits]

    def text(self):
        """The text of docs/RULES.md."""
        tables = defaultdict(list)
        for tag in sorted((tag for tag in self.rules if self.rules[tag].sentences), key=by_number):
            tables[CRATES[self.rules[tag].sentences[0][0].crate]].append(self.line_of(tag))
        out = [HEAD]
        for room, crates in ROOMS:
            if any(crate in tables for crate in crates):
                out.append(f"## {room[0].upper()}{room[1:]}\n")
            for crate in crates:
                if crate in tables:
                    lines = [f"| {' | '.join(line)} |" for line in (COLUMNS, *tables[crate])]
                    lines.insert(1, "|---" * len(COLUMNS) + "|")
                    out.append(f"### {crate}\n\n" + "\n".join(lines) + "\n")
        return "\n".join(out)

    def check(self):
        """What is wrong, a line each."""
        yield from self.faults
        for tag, rule in sorted(self.rules.items(), key=lambda it: by_number(it[0])):
            if not rule.sentences:
                yield f"{rule.files[0]}: there is no rule {tag}: no definition and no function has its sentence"
            for first, other in zip(rule.sentences, rule.sentences[1:]):
                yield f"{other[0].path}:{other[0].line}: {tag} has a sentence here, and another one above {first[0].name}"
            if not rule.shown and not rule.edits and tag not in self.reasons:
                yield f"{rule.files[0]}: {tag} has no row, test or edit, and no reason in tests/rules-not-shown"
            if any("|" in sentence for _, sentence in rule.sentences):
                yield f"{rule.files[0]}: the sentence of {tag} has a `|`, which would part its line"
        yield from (f"tests/rules-not-shown: there is no rule {tag}" for tag in self.reasons if tag not in self.rules)
        words = {tag.split("-")[0] for tag in self.rules}
        for file in (file for pattern in DOCUMENTS for file in sorted(ROOT.glob(pattern)) if file != RULES):
            for tag in sorted(set(re.findall(rf"\b{TAG}\b", file.read_text())) - set(self.rules)):
                if tag.split("-")[0] in words:
                    yield f"{file.relative_to(ROOT)}: there is no rule {tag}"
        yield from differences(RULES, self.text(), "make-rules.py")


def by_number(tag):
    word, number = tag.rsplit("-", 1)
    return word, int(number)


def main():
    book = Book()
    if sys.argv[1:] != ["--check"]:
        RULES.write_text(book.text())
    faults = list(book.check())
    print("\n".join(faults), end="\n" if faults else "")
    return 1 if faults else 0


sys.exit(main())
