#!/usr/bin/env python3
"""Writes the coverage and the lists of CLAIMS.md, between its two marks, from the rows of claims.txt and the lines
'clause:' of the edits. It writes nothing and ends with status 1 if a row names a clause or a test that does not exist, or
if an edit names no clause, or one that is in no row, or if crates.txt has a wrong number of functions that may wait.
"""
import glob, os, re, sys

import written

sys.path.insert(0, f"{written.HOME}/checks")
import edits as trials

PAGE = "docs/CLAIMS.md"
OWNER = re.compile(r"^( *)(?:pub(?:\([a-z ]+\))? )?(?:unsafe )?(impl|trait)\b(.*)")
FUNCTION = re.compile(r'^( *)(?:pub(?:\([a-z ]+\))? )?(?:const )?(?:unsafe )?(?:extern "C" )?fn (\w+)')
CLAUSE = re.compile(r"^ *(?:ensures|requires)\*? (?:(\w+) )?\{")
# A function's name, and its text up to its first clause or its body.
HEAD = re.compile(r"^ *(?:pub(?:\([a-z ]+\))? )?fn (\w+)(.*?)(?:^ *(?:requires|ensures|ghost)\b|\{$)", re.M | re.S)
DEFINED = re.compile(r"^(?=(?:\w+ )*(?:abbrev|record|data) )", re.M)
faults = []
# How many edits of a row are named.
NAMED = 2


# ---- the source

def named(kind, rest):
    """The trait, or none, and the type that an item 'impl' or 'trait' is about."""
    depth = 0
    for at, letter in enumerate(rest):
        depth += (letter == "<") - (letter == ">" and rest[at - 1] != "-")
        if depth == 0 and letter not in "<>":
            break
    words = rest[at + (rest[at] == ">"):] if rest.startswith("<") else rest
    one, both, other = words.strip().partition(" for ")
    names = [re.sub(r"^&?(?:'\w+ )?(?:mut )?(?:\w+::)*(\w+).*", r"\1", text.strip(), flags=re.S) for text in (one, other)]
    if kind == "trait":
        return None, re.match(r"\w+", words.strip()).group()
    return (names[0], names[1]) if both else (None, names[0])


def functions_in(path):
    """Each function: the trait and type of its block, its name, its clauses by their labels, and whether it is a test."""
    found, owner, indent, open_head, test = [], (None, None), None, False, False
    for line in open(path, encoding="utf-8").read().split("\n"):
        bare = line.strip()
        if indent is not None and line == " " * indent + "}":
            owner, indent = (None, None), None
        block, function = OWNER.match(line), FUNCTION.match(line)
        if block and not bare.endswith((";", "{}")):
            owner, indent = named(block.group(2), block.group(3).strip()), len(block.group(1))
        elif function and not open_head:
            found.append((owner[0], owner[1], function.group(2), {}, test))
            margin, test, open_head = function.group(1), False, not bare.endswith(("{", ";", "{}"))
        elif open_head:
            clause, clauses = CLAUSE.match(line), found[-1][3]
            label = (clause.group(1) or "") if clause else next(reversed(clauses), None)
            if label is not None:
                clauses[label] = clauses.get(label, "") + line
            open_head = line not in (margin + "{", margin + "{}") and not bare.endswith(";") \
                and not (line.startswith(margin + ")") and bare.endswith("{"))
        elif bare == "#[test]":
            test = True
    return found


class Source:
    """What the crates have: functions with their clauses, tests and their files, and the definitions of specs/."""

    def __init__(self):
        self.functions, self.tests, self.files, self.traits, self.definitions = {}, set(), {}, {}, {}
        for path in sorted(glob.glob("crates/*/src/**/*.rt", recursive=True)):
            crate = path.split("/")[1]
            for trait, owner, name, clauses, test in functions_in(path):
                if test:
                    self.tests.add(f"{crate}::{name}")
                    self.files.setdefault(f"{crate}/{os.path.basename(path)[:-len('.rt')]}", []).append(f"{crate}::{name}")
                key = f"{crate}::{owner}::{name}" if owner else f"{crate}::{name}"
                self.functions.setdefault(key, []).append((trait, name, clauses))
                if owner and not trait:
                    self.traits.setdefault((owner, name), {}).update(clauses)
        for path in glob.glob("crates/*/specs/*.antt"):
            for text in DEFINED.split(open(path, encoding="utf-8").read())[1:]:
                word = re.match(r"(?:\w+ )*?(?:abbrev|record|data) (?:pub )?(\S+)", text).group(1)
                self.definitions[word] = self.definitions.get(word, "") + text

    def clauses(self, path):
        """A function's clauses by their labels. A method of a trait that has none of its own has the trait's."""
        found = {}
        for trait, name, clauses in self.functions.get(path, []):
            found.update(clauses or (self.traits.get((trait, name), {"": ""}) if trait else {}))
        return found

    def fields(self, text):
        """The fields of the records that a clause says, itself or by the types that it names."""
        names, seen = re.findall(r"\b[A-Z]\w+", text), set()
        while names:
            name = names.pop()
            if name in self.definitions and name not in seen:
                seen.add(name)
                names += re.findall(r"\b[A-Z]\w+", self.definitions[name])
        return {field for name in seen for field in re.findall(r"^ +pub (\w+) :", self.definitions[name], re.M)}

    def has_clause(self, path, label):
        """A label, and after a dot a field of what the clause says; of a clause without a label only a field."""
        clauses = self.clauses(path)
        first, *rest = label.split(".")
        if first not in clauses:
            first, rest = "", label.split(".")
        return first in clauses and set(rest) <= self.fields(clauses[first]) | {""}

    def has_test(self, name):
        """A test; a file, which means its tests; a crate: all its tests, or the stored run of a program; stored runs; or a program in C."""
        if name.endswith(".c"):
            return os.path.isfile(name)
        if name.startswith(("tests/", "docs/")):
            return os.path.isfile(f"{name}.t") or os.path.isdir(name)
        return name in self.tests or name in self.files or "::" not in name \
            and (any(test.startswith(f"{name}::") for test in self.tests) or os.path.isfile(f"crates/{name}/stdin"))


# ---- rows and edits

class Clauses:
    """A line of a row: a function's clauses, and the word by which they are meant, if one is named."""

    def __init__(self, text, source, row):
        text, _, self.by = text.partition(" by ")
        self.path, *self.labels = text.split()
        self.keys = [self.path + ("." + label if label else "") + (f" by {self.by}" if self.by else "")
                     for label in self.labels or [""]]
        for label in self.labels or [""]:
            if not source.has_clause(self.path, label):
                faults.append(f"claims.txt: no clause {self.path} {label}: {row}")
        if self.by and self.by not in source.definitions:
            faults.append(f"claims.txt: no definition {self.by}: {row}")

    def __str__(self):
        words = [f"`{label}`" for label in self.labels] + ([f"by `{self.by}`"] if self.by else [])
        return f"`{self.path}`" + (f" ({', '.join(words)})" if words else "")


def rows_of(source):
    """The lists by their names, each with what is said of it and its rows: a promise, its clauses, those that are alike,
    and its tests."""
    tables = {}
    for part in re.split(r"\n\s*\n", open("docs/claims.txt", encoding="utf-8").read()):
        lines = [line.split(": ", 1) for line in part.split("\n") if line and not line.startswith("#")]
        if lines and lines[0][0] == "table":
            about, rows = "".join(text + "\n\n" for word, text in lines if word == "about"), []
            tables[lines[0][1]] = (about, rows)
        elif lines:
            row = {"promise": "", "clause": [], "alike": [], "test": []}
            for word, text in lines:
                if word == "promise":
                    row["promise"] = text
                elif word == "test":
                    row["test"] += text.split()
                else:
                    row["alike" if word == "alike" else "clause"].append(Clauses(text, source, row["promise"]))
            rows.append(row)
    return tables


def edits_of(source):
    """By their clauses: the crate and the name of each edit."""
    found = {}
    for path in sorted(glob.glob("crates/*/more-edits/*.edit")):
        _, crate, _, name = path.split("/")
        head = open(path, encoding="utf-8").read().split("file: ")[0]
        keys = re.findall(r"^clause: (.*)$", head, re.M)
        if not keys:
            faults.append(f"{path}: no line 'clause:' before its line 'file:'")
        for key in keys:
            found.setdefault(key, []).append((crate, name[:-len(".edit")], path))
    return found


def check(tables, edits, source):
    rows = [row for _, table in tables.values() for row in table]
    known = {key for row in rows for clauses in row["clause"] for key in clauses.keys}
    for key, named_by in edits.items():
        if key not in known:
            faults.extend(f"{path}: no row has the clause {key}" for _, _, path in named_by)
    for row in rows:
        if not row["clause"]:
            faults.append(f"claims.txt: no clause: {row['promise']}")
        faults.extend(f"claims.txt: no test {test}: {row['promise']}" for test in row["test"] if not source.has_test(test))
        faults.extend(f"claims.txt: no row has the clause {key}, which is listed as alike: {row['promise']}"
                      for clauses in row["alike"] for key in clauses.keys if key not in known)


# ---- the lists of rows

def ledger():
    """How many edits the ledger has as tried on this text, and how many it notes as still to be tried."""
    with open("checks/edits.txt", encoding="utf-8") as file:
        lines = [line for line in file.read().split("\n") if line and line[0] != "#"]
    tried = [line for line in lines if re.match(r"\w+/\w+ \w+ refused", line)]
    named = [line for line in tried if "only since a proof names" in line]
    owed = [line for line in lines if line.endswith(" still to be tried")]
    said = f"Tried on the current text, and refused: {len(tried)} (`checks/edits.txt`)"
    said += f", of which {len(named)} only because a proof names what the edit removes." if named else ", each because a goal fails."
    if owed:
        said += f" Not tried yet: {len(owed)}, which `checks/edits.sh --check` lists."
    return said


def names(clauses, edits, home):
    """The edits that name one of these clauses, each once, without the crate if it is the row's."""
    found = [(crate, name) for each in clauses for key in each.keys for crate, name, _ in edits.get(key, [])]
    return [f"`{name}`" if crate == home else f"`{crate}::{name}`" for crate, name in dict.fromkeys(found)]


def edits_for(row, edits):
    """The row's own edits, and those that are alike."""
    home = row["clause"][0].path.split("::")[0]
    own = names(row["clause"], edits, home)
    return own, [name for name in names(row["alike"], edits, home) if name not in own]


def in_files(tests, source):
    """These tests, and all of one file by its name."""
    whole = {test: file for file, others in source.files.items() if len(others) > 1 and set(others) <= set(tests)
             for test in others}
    return list(dict.fromkeys(whole.get(test, test) for test in tests))


def line_of(row, edits, source):
    own, others = edits_for(row, edits)
    named = own[:NAMED] + [f"+{len(own) - NAMED}"] * (len(own) > NAMED)
    tried = [", ".join(named)] * bool(own) + [f"{len(others)} alike"] * bool(others)
    tests = ", ".join(f"`{test}`" for test in in_files(row["test"], source))
    return (f"- {row['promise']}\n  {'; '.join(str(each) for each in row['clause'])}. "
            f"Edits: {'; '.join(tried) or 'none'}. Tests: {tests or 'none'}.\n")


# ---- coverage

def of_statements():
    """The edits that change a statement, as a clause or a definition, and no body of a function."""
    found = []
    for path in sorted(glob.glob("crates/*/more-edits/*.edit")):
        crate = path.split("/")[1]
        lines, _ = trials.applied(path, crate)
        if lines and not any(trials.body_at(crate, file, at) for file, at in lines):
            found.append(path)
    return found


def that_wait():
    """The functions with the bound `Wait`, by their crates, as crates.txt counts them, and how many they are. Of the main
    crate of a program it is `main`, which has every handle."""
    lines, many = [], 0
    for line in open("crates.txt", encoding="utf-8"):
        name = line.split(":")[0].split("#")[0].strip().partition(" ")[0]
        for count in re.findall(r"\bmay_wait=(\d+)", line.split(":")[0]):
            heads = [head for path in sorted(glob.glob(f"crates/{name}/src/**/*.rt", recursive=True))
                     for head in HEAD.findall(open(path, encoding="utf-8").read())]
            named = [function for function, head in heads
                     if re.search(r"\bWait\b", head) or function == "main" and "HostRuntime" in head]
            if len(named) != int(count):
                faults.append(f"crates.txt: {name} has {count} functions that may wait, and {len(named)} have the bound Wait")
            each = ", ".join(f"`{function}`" for function in sorted(named))
            lines.append(f"  - `{name}` ({count}): {each}")
            many += int(count)
    return "\n".join(lines), many


def coverage(tables, edits, waiting):
    rows = [row for name, (_, table) in tables.items() if name != "-" for row in table]
    kinds = [edits_for(row, edits) for row in rows]
    own = sum(bool(own) for own, _ in kinds)
    alike = sum(not own and bool(others) for own, others in kinds)
    none = [row for row, kind in zip(rows, kinds) if not any(kind)]
    untested = [row for row in rows if not row["test"]]
    bare = sum(not row["test"] for row in none)
    waits, wait = waiting
    many = len(glob.glob("crates/*/more-edits/*.edit"))
    return f"""## Coverage

- Rows: {len(rows)}, of which {own} have an edit of their own, {alike} only edits that are alike, and {len(none)} none.
- Rows without a test: {len(untested)}, of which {bare} have no edit either.
- Edits: {many}, of which {len(of_statements())} change a clause of a law, a definition or a constant, and no body.
- {ledger()}
- Functions that may wait for a lock or a thread, and so have the bound `Wait`: {wait}. All others return.
{waits}
"""


def main():
    is_checked = written.only_checks("claims.sh", __doc__)
    source = Source()
    tables, edits = rows_of(source), edits_of(source)
    check(tables, edits, source)
    waiting = that_wait()
    if faults:
        sys.exit("\n".join(dict.fromkeys(faults)))
    text = "\n\n".join([coverage(tables, edits, waiting).rstrip()] + [
        f"## {name}\n\n{about}{''.join(line_of(row, edits, source) for row in rows)}".rstrip()
        for name, (about, rows) in tables.items() if name != "-"])
    written.put(PAGE, written.between_marks(PAGE, "claims.sh", text), "claims.sh", is_checked)


main()
