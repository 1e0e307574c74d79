#!/usr/bin/env -S python3 -B
"""Makes docs/ANSWERS.md: what is proved, by the questions of tests/questions, in the words of the sources.

An answer is the comment above a law or a call, and for each clause of it the comment above the definition that the clause
names. With --check nothing is written; a line for each fault says what is wrong: a name that no source has, a law that no
question has, a function without a comment, or a document that is not what the sources make. The status is 1 if there is one.
"""
import re
import sys
import textwrap
from collections import defaultdict
from dataclasses import dataclass, field

from sources import CLAUSE, CRATES, DEFINITION, FUNCTION, ROOT, TAG, cited, differences, imports, owner_of, tags_in

ANSWERS = ROOT / "docs" / "ANSWERS.md"
QUESTIONS = ROOT / "tests" / "questions"
WIDTH = 120

HEAD = """\
# Answers

What is proved, by question. tests/make-answers.py makes this file of the comments above laws, calls and definitions, by
the questions of tests/questions; the gate compares it. An answer ends with the contract that proves it, and the rules of
docs/RULES.md that the contract names. If the two disagree, trust the contract. docs/CLAIMS.md has the promises in short,
the words, and what is not proved.
"""
WORKED = "### Which examples are worked?"


@dataclass
class Function:
    """A function of one crate, with what its comment says and the clauses of its contract."""

    crate: str
    path: str
    line: int
    says: str
    may_be_law: bool  # it is public, and has no argument
    clauses: list = field(default_factory=list)  # each with its name and the definition that its text begins with
    cites: set = field(default_factory=set)  # the definitions that they name
    is_law: bool = False


def read_definitions():
    """By its crate and `File.name` what the comment above each definition says, and its tags of rules."""
    said = {}
    for crate in CRATES:
        for file in sorted((ROOT / "crates" / crate).glob("specs/**/*.antt")):
            comment, tags = [], []
            for line in file.read_text().splitlines():
                if line.startswith("-- "):
                    comment.append(re.sub(rf"^{TAG}(,? {TAG})*(: |$)", "", line[3:]))
                    tags += tags_in(line[3:])
                else:
                    if found := DEFINITION.match(line):
                        said[crate, f"{file.stem}.{found[1]}"] = " ".join(filter(None, comment)), tags
                    comment, tags = [], []
    return said


def read_functions():
    """The functions of all crates, by crate and name; one of an impl or a trait as `Type::name`."""
    functions = {}
    for crate in CRATES:
        for file in sorted((ROOT / "crates" / crate).glob("src/**/*.rt")):
            read_source(crate, file, functions)
    return functions


def read_source(crate, file, functions):
    names, own_names, owner, function, says, depth = {}, {}, None, None, [], 0
    for number, line in enumerate(file.read_text().splitlines(), 1):
        if owner_of(line) or line.startswith("}"):
            owner, own_names = owner_of(line), {}
        (own_names if line.startswith(" ") else names).update(imports(line))
        bare = line.strip()
        if bare.startswith("///"):
            says.append(bare[3:].strip())
        elif found := FUNCTION.match(line):
            name = f"{owner}::{found[2]}" if owner and found[1] else found[2]
            may_be_law = line.startswith(f"pub fn {found[2]}()")
            function = Function(crate, str(file.relative_to(ROOT / "crates" / crate)), number, paragraph(says), may_be_law)
            functions.setdefault((crate, name), function)
            says = []
        elif not bare.startswith(("#[", "//")):
            says = []
        clause = CLAUSE.fullmatch(line)
        if clause and clause[1] == "ensures" and not depth and function:
            name, _, text = clause[2].partition("{")
            first = re.match(r"[^\s(){}.]*", text.strip())[0]
            function.clauses.append((name.strip(), (names | own_names).get(first)))
        if clause or depth:
            text = line if depth else clause[2]
            depth += text.count("{") - text.count("}")
            if function:
                function.cites |= cited(text, names | own_names)
        elif bare == "{}" and function:
            function.is_law = function.may_be_law


def paragraph(lines):
    """The first paragraph of a comment."""
    return " ".join(lines[: lines.index("")] if "" in lines else lines)


class Answers:
    def __init__(self):
        self.functions, self.definitions = read_functions(), read_definitions()
        self.faults, self.asked = [], set()

    def fault(self, number, wrong):
        self.faults.append(f"{QUESTIONS.relative_to(ROOT)}:{number}: {wrong}")

    def answer(self, crate, name, function):
        """The lines of one answer."""
        names = [clause for clause, _ in function.clauses if clause]
        clauses = f" ({', '.join(f'`{it}`' for it in names)})" if names else ""
        what = "law " if function.is_law else ""
        tags = sorted({tag for it in function.cites for tag in self.definitions.get(it, ("", ()))[1]})
        rules = f" Rules: {', '.join(tags)}." if tags else ""
        lines = [*wrap(function.says, "- "), *wrap(f"By {crate}: {what}`{name}`{clauses}, {function.path}.{rules}", "  ")]
        if function.is_law and len(function.clauses) > 1:
            for clause, definition in function.clauses:
                said, _ = self.definitions.get(definition, ("", ()))
                is_sentence = said[:1].isupper() and said.endswith(".")
                lines += wrap(f"`{clause}`: {said}", "  - ") if is_sentence else []
        return lines

    def text(self):
        """The text of docs/ANSWERS.md."""
        out = [HEAD]
        for number, line in enumerate(QUESTIONS.read_text().splitlines(), 1):
            if line.startswith("##"):
                out += ["", line, ""]
            elif line and not line.startswith("#"):
                crate, _, names = line.partition(": ")
                for name in names.split():
                    function = self.functions.get((crate, name))
                    if not function:
                        self.fault(number, f"there is no function {name} in {crate}")
                    elif not function.says:
                        self.fault(number, f"no comment says what {name} of {crate} does")
                    else:
                        out += self.answer(crate, name, function)
                    if (crate, name) in self.asked:
                        self.fault(number, f"{name} of {crate} is here a second time")
                    self.asked.add((crate, name))
        out += ["", WORKED, "", *self.worked()]
        return re.sub(r"\n{3,}", "\n\n", "\n".join(out)) + "\n"

    def worked(self):
        """Worked examples, by crate, which are laws too."""
        found = defaultdict(list)
        for (crate, name), function in self.functions.items():
            if function.is_law and name.startswith("worked_"):
                found[crate].append(name)
        told = "; ".join(f"{crate}: {', '.join(f'`{it}`' for it in names)}" for crate, names in found.items())
        return wrap(f"The definitions give what these say, each a law: {told}.", "")

    def check(self, text):
        yield from self.faults
        for (crate, name), function in self.functions.items():
            if function.is_law and not name.startswith("worked_") and (crate, name) not in self.asked:
                path = f"crates/{crate}/{function.path}:{function.line}"
                yield f"{path}: the law {name} answers no question of tests/questions"
        yield from differences(ANSWERS, text, "make-answers.py")


def wrap(text, first):
    rest = " " * len(first)
    return textwrap.wrap(text, WIDTH, initial_indent=first, subsequent_indent=rest, break_long_words=False, break_on_hyphens=False)


def main():
    answers = Answers()
    text = answers.text()
    if sys.argv[1:] != ["--check"]:
        ANSWERS.write_text(text)
    faults = list(answers.check(text))
    print("\n".join(faults), end="\n" if faults else "")
    return 1 if faults else 0


sys.exit(main())
