#!/usr/bin/env python3
"""Writes the table and lists of crates of ARCHITECTURE.md, between its two marks: what each crate is, by the first sentence
of its own comment, what it depends on, by crates.txt, and its main functions, by the lines 'carries:' of claims.txt;
and whose proofs cite lemmas out of the proofs of a lower crate, by their imports.
"""
import glob, os, re

import written

PAGE = "docs/ARCHITECTURE.md"
is_checked = written.only_checks("crates.sh", __doc__)

below = {}
for line in open("crates.txt", encoding="utf-8"):
    name, colon, rest = line.split("#")[0].partition(":")
    if colon:
        below[name.split()[0]] = rest.split()

carried = {}
for line in open("docs/claims.txt", encoding="utf-8"):
    word, _, rest = line.strip().partition(": ")
    if word == "carries":
        crate, _, function = rest.split()[0].partition("::")
        if function not in carried.setdefault(crate, []):
            carried[crate].append(function)


def all_below(name):
    found = set()
    for each in below.get(name, []):
        found |= {each} | all_below(each)
    return found


def stands_on(name):
    """The crates that it depends on, without those on which another one of them depends."""
    under = set().union(*(all_below(each) for each in below[name]))
    return ", ".join(f"`{each}`" for each in below[name] if each not in under)


def about(name):
    """The first sentence of the crate's own comment."""
    root = next(path for path in (f"crates/{name}/src/lib.rt", f"crates/{name}/src/main.rt") if os.path.isfile(path))
    lines = []
    for line in open(root, encoding="utf-8"):
        if not line.startswith("//! "):
            break
        lines.append(line[3:].strip())
    return re.split(r"(?<=\.) (?=[A-Z`])", " ".join(lines).strip())[0].replace("|", "\\|")


def functions(name):
    """The main functions of the crate."""
    return ", ".join(f"`{function}`" for function in carried.get(name, [])) or "none"


def cited(name):
    """The files of other crates' proofs that its own proofs import."""
    found = {}
    for path in sorted(glob.glob(f"crates/{name}/proofs/**/*.antt", recursive=True)):
        for crate, file in re.findall(r"^(?:pub )?use Rattle\.(\w+)\.proofs\.(\w+)", open(path, encoding="utf-8").read(), re.M):
            if crate in below and crate != name:
                found.setdefault(crate, set()).add(file)
    return "; ".join(f"`{crate}` ({', '.join(f'`{file}`' for file in sorted(files))})" for crate, files in found.items())


rows = "".join(f"| `{name}` | {about(name)} | {stands_on(name)} | {functions(name)} |\n"
               for name in below if not name.endswith("_tests"))
tests = "".join(f"- `{name}`: {stands_on(name)}\n" for name in below if name.endswith("_tests"))
proofs = "".join(f"- `{name}`: {cited(name)}\n" for name in below if cited(name))
text = f"""\
| crate | contents | depends on | main functions |
|---|---|---|---|
{rows}
Crates of tests, and what they depend on:

{tests}
Crates whose proofs cite proofs of lower ones, and which:

{proofs}"""
written.put(PAGE, written.between_marks(PAGE, "crates.sh", text.rstrip("\n")), "crates.sh", is_checked)
