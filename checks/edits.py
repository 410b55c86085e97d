#!/usr/bin/env python3
"""Tries the edits of crates/NAME/more-edits/, each of which the prover must refuse, and keeps the ledger of what came of
them, checks/edits.txt.

  edits.sh [CRATE..]      tries the edits of these crates, by default of all, and writes the ledger crate by crate
  edits.sh --changed ..   tries only those whose outcome the ledger does not have for the text as it is
  edits.sh --check        tries nothing, and names each crate with edits that have to be tried again, in a second
  edits.sh --owe ..       tries nothing, and notes that the edits of these crates are still to be tried on the text as it
                          is: --check then reports them and does not fail, until the text changes

An edit turns one function into a wrong one. Its outcome depends on its own text, on the crate's and on the statements of
the crates below it: the ledger has a sum of each, without comments. So a changed edit is tried alone, and a changed crate
has all of its edits tried. --check applies each edit too, without a proof. `rt ci` proves what is below, on a copy of the
tree, or takes what it has kept. Then the unchanged crate is checked; if `rt check` left its work in out/, that takes a few
seconds. Edits of different functions are tried in one check. An edit is refused if the check says so of its own function:
one that only calls another refused function is tried again without that one. An edit that changes a statement, so that
more than one function may fail, has a check of its own.

--jobs N has N crates tried at the same time, by default one a processor, or fewer if memory is short.
Statuses: 0 if each edit is refused and the ledger says so, 1 if one is not or the ledger is old, 2 if an edit
could not be tried.
"""
import argparse
import collections
import glob
import hashlib
import os
import re
import shutil
import signal
import subprocess
import sys
import tempfile
import threading
import time
from concurrent.futures import ThreadPoolExecutor, as_completed

HOME = os.path.dirname(os.path.dirname(os.path.abspath(__file__)))
LEDGER = f"{HOME}/checks/edits.txt"
SELF = os.path.basename(sys.argv[0]).replace(".py", ".sh")
HEAD = """\
# What came of the edits in crates/*/more-edits, as checks/edits.sh tried them. It writes this file; .ci/run compares the sums.
# A crate's line: a sum of its own text, one of the statements of the crates below it, and how many of its edits were refused.
# An edit's line: a sum of its text, the function that the check refused, and the goals that failed there.
"""
# What a check takes of memory at the most, in kB.
NEED = 3_500_000
PARTS = ("src", "specs", "proofs")
# What became of an edit. The last three count as faults.
REFUSED, NAME_GONE, AT_LIMIT = "refused", "refused, but only since a proof names what the edit removes", "refused at a limit of the prover"
PROVED, BAD, UNTRIED = "NOT REFUSED", "BAD EDIT", "NOT TRIED"
FAULTS = (PROVED, BAD, UNTRIED)
# The outcome of an edit that --owe notes.
OWED = "still to be tried"


# --- what the repository has ---


def read(path):
    with open(path, encoding="utf-8") as file:
        return file.read()


def listed():
    """The crates of crates.txt, each with its line's words and with what it names, lowest first."""
    crates = {}
    for line in read(f"{HOME}/crates.txt").split("\n"):
        name, colon, rest = line.split("#")[0].partition(":")
        if colon:
            crates[name.split()[0]] = name.split()[1:], rest.split()
    return crates


def below(name, crates):
    """The repository's crates below this one, lowest first."""
    found = []
    for dep in crates[name][1]:
        if dep in crates:
            found += [it for it in [*below(dep, crates), dep] if it not in found]
    return found


def texts(name, *parts):
    """The crate's files in these folders, by their path in it."""
    folder = f"{HOME}/crates/{name}"
    paths = [path for part in parts for path in glob.glob(f"{folder}/{part}/**/*", recursive=True)]
    return {os.path.relpath(path, folder): path for path in sorted(paths) if os.path.isfile(path)}


def edits_of(name):
    return sorted(glob.glob(f"{HOME}/crates/{name}/more-edits/*.edit"))


# --- functions, by the layout that `rt fmt` gives ---

Function = collections.namedtuple("Function", "name at body end indent is_public owner")
FN = re.compile(r"^( *)(pub(?:\([a-z]+\))? )?(?:const )?(?:unsafe )?(?:extern \"C\" )?fn (\w+)")
OWNER = re.compile(r"^(?:pub(?:\([a-z]+\))? )?(impl|trait)\b")


def type_name(path):
    return re.sub(r"<.*", "", path.strip()).split("::")[-1].strip("& ")


def owner_of(line):
    """The name that a check prints for an impl or a trait, and whether its functions are those of a trait."""
    text = re.sub(r"^(?:pub(?:\([a-z]+\))? )?(impl|trait)\b", r"\1", line).rstrip(" {")
    if text.startswith("trait"):
        return type_name(re.split(r"[:<]", text[len("trait") :])[0]), True
    text, depth = text[len("impl") :], 0
    if text.startswith("<"):
        for at, letter in enumerate(text):
            depth += (letter == "<") - (letter == ">" and text[at - 1] != "-")
            if not depth:
                text = text[at + 1 :]
                break
    of, is_trait, what = text.rpartition(" for ")
    return (type_name(what) + type_name(of), True) if is_trait else (type_name(text), False)


def functions(text):
    """The functions of a file: the lines of the head, of the body's begin and of its end, counted from 0."""
    lines, found, owner, in_trait = text.split("\n"), [], None, False
    for at, line in enumerate(lines):
        if line[:1] not in ("", " ", "}", "/", "#", ")") and not FN.match(line):
            owner, in_trait = owner_of(line) if OWNER.match(line) else (None, False)
        head = FN.match(line)
        if not head:
            continue
        indent, body, end = head[1], None, at
        for number in range(at, len(lines)):
            each = lines[number]
            outside = each.startswith(indent) and each[len(indent) : len(indent) + 1] not in (" ", "")
            if number > at and body is None and outside and FN.match(each):
                # a trait's, with clauses and no body
                break
            if body is None and outside and each.endswith(("}", ";")):
                # in one line, or with no body
                body = end = number
                break
            if body is None and outside and each.endswith("{"):
                body = number
            elif body is not None and each == f"{indent}}}":
                end = number
                break
        is_public = head[2] == "pub " or in_trait
        found.append(Function(head[3], at, body if body is not None else at, end, indent, is_public, owner if indent else None))
    return found


USE = re.compile(r"^((?:ghost )?use )([^;{]*)(\{[^;{}]*\})?;\n?", re.MULTILINE)


def has_name(text, name):
    """Whether the text has the name, or for one such as ◌+◌ its sign."""
    sign = name.split()[-1].replace("◌", "")
    return bool(re.search(rf"\b{sign}\b", text)) if re.fullmatch(r"\w+", sign) else sign in text


def statements(text):
    """The file without comments and blank lines, without the bodies of functions and without the functions that no other
    crate sees. The imported names come first, one by one, and only those that the rest has."""
    lines, hidden, names = text.split("\n"), set(), []
    for each in functions(text):
        hidden.update(range(each.body + 1, each.end) if each.is_public else range(each.at, each.end + 1))
    kept = "\n".join(line for at, line in enumerate(lines) if at not in hidden and line.strip() and not line.lstrip().startswith("//"))
    rest = USE.sub("", kept)
    for word, path, group in USE.findall(kept):
        names += [f"{word}{path}{name.strip()}" for name in group.strip("{}").split(",") if name.strip()] or [word + path]
    return "\n".join([*sorted(name for name in names if has_name(rest, re.split(r"::|\.", name)[-1])), rest])


# --- sums ---


def bare(text, path):
    """The file without the lines that are comments: a change of these turns no outcome. A line that goes on a string stays."""
    mark, kept, before = {".antt": "--", ".edit": "#"}.get(os.path.splitext(path)[1], "//"), [], ""
    for line in text.split("\n"):
        if before.endswith("\\") or not line.lstrip().startswith(mark):
            kept.append(line)
        before = line
    return "\n".join(kept)


def sum_of(*words):
    return hashlib.sha256("\0".join(words).encode()).hexdigest()[:16]


def stated(name, known={}):
    """A sum of what other crates can read of the crate: its definitions, its types and its contracts."""
    if name not in known:
        words = []
        for path, file in texts(name, "src", "specs").items():
            words += [path, statements(read(file)) if path.endswith(".rt") else bare(read(file), path)]
        known[name] = sum_of(*words)
    return known[name]


def sums(name, crates):
    """A sum of the crate's own text, without its edits, and one of the statements of the crates below it."""
    own = [repr(crates[name])]
    for path, file in texts(name, *PARTS).items():
        if path.endswith((".rt", ".antt")):
            own += [path, bare(read(file), path)]
    return sum_of(*own), sum_of(*[f"{dep} {stated(dep)}" for dep in below(name, crates)])


def edit_name(path):
    return os.path.basename(path)[: -len(".edit")]


def edit_sums(name):
    """The sum of each edit of the crate, by its name."""
    return {edit_name(path): sum_of(bare(read(path), path)) for path in edits_of(name)}


# --- the ledger ---

# A crate's two sums, and of each edit its sum and its outcome.
Row = collections.namedtuple("Row", "own below edits")


def read_ledger():
    rows = {}
    if os.path.isfile(LEDGER):
        for line in read(LEDGER).split("\n"):
            first, _, rest = line.partition(" ")
            name, is_edit, edit = first.partition("/")
            if is_edit:
                total, _, outcome = rest.partition(" ")
                rows[name].edits[edit] = total, outcome
            elif line and name != "#":
                said = dict(word.partition("=")[::2] for word in rest.split())
                rows[name] = Row(said.get("own"), said.get("below"), {})
    return rows


def write_ledger(rows):
    lines = []
    for name, row in sorted(rows.items()):
        refused = sum(not outcome.startswith((*FAULTS, OWED)) for _, outcome in row.edits.values())
        lines.append(f"{name} own={row.own} below={row.below} edits={len(row.edits)} refused={refused}\n")
        lines += [f"{name}/{edit} {total} {outcome}\n" for edit, (total, outcome) in sorted(row.edits.items())]
    with open(f"{LEDGER}.new", "w", encoding="utf-8") as file:
        file.write(HEAD + "".join(lines))
    os.replace(f"{LEDGER}.new", LEDGER)


def left_of(name, crates, rows):
    """The edits of the crate whose outcome the ledger does not have for the text as it is, and why."""
    found = edit_sums(name)
    if name not in rows:
        return set(found), "as they never were"
    own, under = sums(name, crates)
    if rows[name].own != own:
        return set(found), "as the crate has changed since they were tried"
    if rows[name].below != under:
        return set(found), "as what it reads of the crates below has changed since they were tried"
    left = {edit for edit, total in found.items() if rows[name].edits.get(edit, ("",))[0] != total}
    return left, f"as these are new or have changed: {', '.join(sorted(left))}"


def owed(name, rows):
    return {edit for edit, (_, outcome) in rows[name].edits.items() if outcome == OWED} if name in rows else set()


def noted(name, crates, rows, outcomes):
    """The crate's row with these outcomes, and with the earlier ones of its other edits."""
    found, (left, _) = edit_sums(name), left_of(name, crates, rows)
    kept = {edit: rows[name].edits[edit] for edit in found if edit not in left}
    return Row(*sums(name, crates), {**kept, **{edit: (found[edit], outcome) for edit, outcome in outcomes.items()}})


def owe(names, crates):
    """Notes the edits that were not tried on this text."""
    rows = read_ledger()
    for name in names:
        left, _ = left_of(name, crates, rows)
        rows[name] = noted(name, crates, rows, dict.fromkeys(left, OWED))
    write_ledger(rows)


def check(crates, names):
    """Compares the ledger with the tree."""
    rows, old, missed, gone = read_ledger(), [], 0, 0
    for name in names:
        left, why = left_of(name, crates, rows)
        if left:
            print(f"{name}: its edits have to be tried, {why}")
            old.append(name)
        still = owed(name, rows) - left
        if still:
            print(f"{name}: {len(still)} of its edits {'is' if len(still) == 1 else 'are'} still to be tried: checks/edits.sh --changed {name}")
        for edit, (_, outcome) in (rows[name].edits if name in rows else {}).items():
            if not os.path.isfile(f"{HOME}/crates/{name}/more-edits/{edit}.edit"):
                print(f"{name}/{edit} is in checks/edits.txt, and no longer in more-edits")
                gone += 1
            elif edit not in left and outcome.startswith(FAULTS):
                print(f"{name}/{edit} {outcome}")
                missed += 1
        for path in edits_of(name):
            _, why = applied(path, name)
            if why:
                print(f"{name}/{os.path.basename(path)} can't be applied: {why}")
                missed += 1
    lost = [name for name in rows if name not in names]
    for name in lost:
        print(f"{name}: checks/edits.txt has edits that are no longer there")
    if old or lost or gone:
        print(f"run: checks/edits.sh {' '.join(['--changed', *old])}")
    failed = len(old) + missed + len(lost) + gone
    print(f"{len(names) - len(old)} passed, {failed} failed")
    return failed > 0


# --- edits ---

Edit = collections.namedtuple("Edit", "name lines functions is_alone")


def read_edit(path):
    """An edit's pairs of an old and a new text, each with its file."""
    file, old, pairs = None, None, []
    for line in read(path).split("\n"):
        if line.startswith("file: "):
            file = line[len("file: ") :].strip()
        elif line.startswith("old: "):
            old = line[len("old: ") :]
        elif line.startswith("new:"):
            pairs.append((file, old, re.sub(r"\A ", "", line[len("new:") :])))
            old = None
    return pairs


def applied(path, name):
    """The lines that the edit changes, by file and number, or why it can't be applied."""
    before, after = {}, {}
    for file, old, new in read_edit(path):
        if not file or not old:
            return None, "a line 'new:' is before any 'file:' or 'old:'"
        if not file.startswith(("src/", "specs/", "proofs/")) or ".." in file:
            return None, f"{file} is not in src/, specs/ or proofs/"
        if file not in after:
            if not os.path.isfile(f"{HOME}/crates/{name}/{file}"):
                return None, f"there is no file {file}"
            before[file] = after[file] = read(f"{HOME}/crates/{name}/{file}")
        if after[file].count(old) != 1:
            return None, f"an old text is in {file} {after[file].count(old)} times, not once"
        after[file] = after[file].replace(old, new)
    found = {}
    for file, text in after.items():
        pairs = enumerate(zip(before[file].split("\n"), text.split("\n")))
        found.update({(file, at): new for at, (old, new) in pairs if old != new})
    return (found, None) if found else (None, "it changes nothing")


def body_at(name, file, at):
    """The function whose body has this line, or nothing if the line is of a head, a definition or anything else."""
    if not file.startswith("src/"):
        return None
    inside = [it for it in functions(read(f"{HOME}/crates/{name}/{file}")) if it.at <= at <= it.end]
    return inside[-1] if inside and at >= inside[-1].body else None


def placed(path, name, printed):
    """The edit with the functions whose bodies it changes, or why it can't be applied. One that changes anything else is alone."""
    lines, why = applied(path, name)
    if why:
        return None, why
    found, is_alone = set(), False
    for file, at in lines:
        function = body_at(name, file, at)
        printed_name = function and name_of(function, file, printed)
        if printed_name:
            found.add(printed_name)
        elif not is_import(file, lines[file, at]):
            is_alone = True
    return Edit(edit_name(path), lines, frozenset(found), is_alone), None


def is_import(file, line):
    """Whether the line only brings a name in."""
    return file.startswith("src/") and re.match(r"\s*(ghost )?use ", line)


def name_of(function, file, printed):
    """The name by which a check prints the function, if it can be told."""
    module = re.sub(r"^src/|/mod\.rt$|\.rt$", "", file).replace("/", "::")
    parts = [] if module in ("lib", "main") else [module]
    exact = "::".join([*parts, *([function.owner] if function.owner else []), function.name])
    if exact in printed:
        return exact
    # (a generic impl may be printed otherwise)
    first = re.match(r"[A-Z][a-z0-9]*", function.owner or "")
    like = [it for it in printed if it.startswith("::".join([*parts, ""])) and it.endswith(f"::{function.name}")]
    like = [it for it in like if it.count("::") == len(parts) + (1 if function.owner else 0)]
    like = [it for it in like if not first or it.split("::")[-2].startswith(first[0])]
    return like[0] if len(like) == 1 else None


# --- checks ---


class Stopped(Exception):
    pass


CHILDREN, LOCK = set(), threading.Lock()
ENDING = threading.Event()


def run(words, folder, log=None):
    """Runs a command, and returns its status, what it said, its seconds of processors and its most memory in kB."""
    with tempfile.TemporaryFile("w+", errors="replace") as said:
        with LOCK:
            if ENDING.is_set():
                raise Stopped
            child = subprocess.Popen(words, cwd=folder, stdin=subprocess.DEVNULL, stdout=said, stderr=subprocess.STDOUT)
            CHILDREN.add(child)
        _, status, used = os.wait4(child.pid, 0)
        child.returncode = os.waitstatus_to_exitcode(status)
        with LOCK:
            CHILDREN.discard(child)
        if ENDING.is_set():
            raise Stopped
        said.seek(0)
        return child.returncode, said.read(), used.ru_utime + used.ru_stime, used.ru_maxrss


def end_all(*_):
    with LOCK:
        ENDING.set()
        for child in CHILDREN:
            child.terminate()


def kit():
    found = shutil.which("rt")
    if not found:
        sys.exit(f"{SELF}: there is no rt on the path: install the Rattle toolchain")
    return os.path.dirname(os.path.dirname(os.path.realpath(found)))


def copy_crate(name, to):
    for part in PARTS:
        if os.path.isdir(f"{HOME}/crates/{name}/{part}"):
            shutil.copytree(f"{HOME}/crates/{name}/{part}", f"{to}/{part}")


def linked(folder, to):
    """Copies what a check left, by links for what was proved: a check replaces such a file, and changes none."""

    def copy(one, other):
        try:
            if one.endswith(".oantt"):
                return os.link(one, other)
        except OSError:
            pass
        return shutil.copy2(one, other)

    shutil.copytree(folder, to, copy_function=copy)


def prove_below(names, crates, room):
    """Has `rt ci` prove the crates below these, or take what it has kept, in a copy whose out/ folders then have the libraries."""
    wanted = {dep for name in names for dep in below(name, crates)}
    os.makedirs(f"{room}/tree/.git")
    with open(f"{room}/tree/crates.txt", "w", encoding="utf-8") as file:
        for name in [it for it in crates if it in wanted]:
            copy_crate(name, f"{room}/tree/crates/{name}")
            file.write(f"{' '.join([name, *crates[name][0]])}: {' '.join(crates[name][1])}\n")
    if os.path.isfile(f"{HOME}/HANDLES"):
        shutil.copy(f"{HOME}/HANDLES", f"{room}/tree")
    if not wanted:
        return
    say(f"rt ci proves the {len(wanted)} crates below, or takes what it has kept")
    status, said, _, _ = run(["rt", "ci"], f"{room}/tree")
    if status:
        lines = said.rstrip("\n").split("\n")
        at = next((at for at, line in enumerate(lines) if " NOT PROVED" in line), len(lines))
        print("\n".join(lines[max(at - 40, 0) : at + 1]), file=sys.stderr)
        sys.exit(f"{SELF}: the crates below are not proved, so nothing was checked")


def say(text):
    print(f"{SELF}: {text}", file=sys.stderr, flush=True)


class Trial:
    """The edits of one crate."""

    def __init__(self, name, crates, room, home_kit):
        self.name, self.room, self.spent, self.checks = name, f"{room}/{name}", 0.0, 0
        self.printed, self.calls = set(), collections.defaultdict(set)
        words, deps = crates[name]
        rlib = lambda dep: f"{room}/tree/crates/{dep}/out/rlib/{dep}.rlib" if dep in crates else f"{home_kit}/rlibs/{dep}.rlib"
        root = "src/main.rt" if os.path.isfile(f"{HOME}/crates/{name}/src/main.rt") else "src/lib.rt"
        self.words = [f"{home_kit}/bin/rattle", "check", "--crate-name", name, root]
        for dep in ["std", *deps]:
            self.words += ["--extern", f"{dep}={rlib(dep)}"]
        for folder in [f"{home_kit}/rlibs", *[os.path.dirname(rlib(dep)) for dep in below(name, crates)]]:
            self.words += ["-L", f"dependency={folder}"]
        self.words += ["--links", f"{name}=", *(["--crate-type", "staticlib"] if "staticlib" in words else [])]
        self.words += ["--antt-project", f"{home_kit}/rattle/logic/antt-project.json"]
        self.words += ["--logic-built", f"{home_kit}/logic_built", "--jobs", "1"]

    def check(self, edits, work):
        """Checks the crate with these edits, over the folder of work."""
        with tempfile.TemporaryDirectory(prefix="crate-", dir=self.room) as folder:
            copy_crate(self.name, folder)
            for file in {file for edit in edits for file, _ in edit.lines}:
                lines = read(f"{folder}/{file}").split("\n")
                for edit in edits:
                    for (of, at), new in edit.lines.items():
                        if of == file:
                            lines[at] = new
                with open(f"{folder}/{file}", "w", encoding="utf-8") as it:
                    it.write("\n".join(lines))
            for _ in range(2):
                status, said, seconds, _ = run([*self.words, "--incremental", work], folder)
                self.spent, self.checks = self.spent + seconds, self.checks + 1
                # (killed for memory, mostly: once more)
                if status != -signal.SIGKILL:
                    break
        return status, said

    def over_seed(self, edits):
        work = f"{self.room}/over"
        shutil.rmtree(work, ignore_errors=True)
        linked(f"{self.room}/seed", work)
        try:
            return self.check(edits, work)
        finally:
            shutil.rmtree(work, ignore_errors=True)

    def begin(self, from_nothing):
        """Checks the crate as it is, over what `rt check` left of it, and leaves its own work there if there is none."""
        kept, seed = f"{HOME}/crates/{self.name}/out/incremental", f"{self.room}/seed"
        for start in [kept, None] if os.path.isdir(kept) and not from_nothing else [None]:
            shutil.rmtree(seed, ignore_errors=True)
            os.makedirs(self.room, exist_ok=True)
            try:
                linked(start, seed) if start else os.mkdir(seed)
                status, said = self.check([], seed)
            except (OSError, shutil.Error):
                # (another command may write there)
                continue
            if not status:
                break
        if status:
            print("\n".join(said.rstrip("\n").split("\n")[-12:]), file=sys.stderr)
            return "the crate is not proved as it is"
        self.printed = set(re.findall(rf"(?m)^fn {self.name}::(\S+): ", said))
        if not os.path.isdir(kept):
            os.makedirs(os.path.dirname(kept), exist_ok=True)
            place = tempfile.mkdtemp(prefix="edits-", dir=os.path.dirname(kept))
            linked(seed, f"{place}/work")
            if not os.path.isdir(kept):
                os.rename(f"{place}/work", kept)
            shutil.rmtree(place, ignore_errors=True)
        return None

    def try_all(self, paths, from_nothing=False):
        """What became of each edit, by its name: a kind, and the function and its goals."""
        outcomes, waiting = {}, []
        why = self.begin(from_nothing)
        if why:
            return {edit_name(path): (UNTRIED, why) for path in paths}
        for path in paths:
            edit, why = placed(path, self.name, self.printed)
            if why:
                outcomes[edit_name(path)] = BAD, why
            else:
                waiting.append(edit)
        while waiting:
            group = self.group(waiting)
            status, said = self.over_seed(group)
            found = self.settled(group, status, said)
            outcomes.update({edit.name: found[edit.name] for edit in group if edit.name in found})
            # What is left of a group comes first in the next, and is alone if nothing else would change.
            left = [edit for edit in group if edit.name not in found]
            if len(left) == len(group) > 1:
                half = len(group) // 2
                for part in (group[:half], group[half:]):
                    status, said = self.over_seed(part)
                    found = self.settled(part, status, said)
                    outcomes.update({edit.name: found[edit.name] for edit in part if edit.name in found})
                left = [edit._replace(is_alone=True) for edit in group if edit.name not in outcomes]
            waiting = left + [edit for edit in waiting if edit not in group]
        return outcomes

    def reaches(self, edit, other):
        """Whether the functions of the one are known to call those of the other."""
        seen, left = set(), list(edit.functions)
        while left:
            each = left.pop()
            if each in other.functions:
                return True
            if each not in seen:
                seen.add(each)
                left += self.calls[each]
        return False

    def group(self, waiting):
        """The edits of the next check: of different functions, none of which calls another."""
        group = []
        for edit in waiting:
            if edit.is_alone:
                if not group:
                    return [edit]
                continue
            if not any(self.reaches(edit, it) or self.reaches(it, edit) for it in group):
                group.append(edit)
        return group

    def settled(self, group, status, said):
        """Of these edits, tried in one check, what became of those of which that check tells."""
        lines = said.rstrip("\n").split("\n")
        said_of = {name: rest for name, rest in re.findall(rf"(?m)^fn {self.name}::(\S+): (.*)$", said)}
        for name, rest in said_of.items():
            self.calls[name].update(re.findall(rf"it calls `{self.name}::([^`]+)`", rest))
        if len(group) == 1:
            return {group[0].name: self.alone(group[0], status, lines, said_of)}
        if status != 1 or not lines[-1].startswith("logic=not-proved"):
            return {}
        found = {}
        for edit in group:
            for function in sorted(edit.functions):
                kind, goals = self.failed(function, said_of.get(function, ""), lines)
                if kind:
                    found[edit.name] = kind, f"{function}{': ' if goals else ''}{', '.join(goals)}"
                    break
        return found

    def failed(self, function, rest, lines):
        """Whether the check refuses the function for a reason of its own, and which of its goals failed."""
        if not re.match(r"(not proved|no proof|could not tell)", rest):
            return None, []
        goals = re.findall(r"`([^`]+)`", rest.partition("`search` did not prove")[2].partition(";")[0])
        has_gone, folder = False, f"./proofs/{function.replace('::', '/')}/"
        for line in lines:
            if line.startswith(folder) and ": error: " in line:
                if re.search(r"has no field|is not in scope|has no `|was not admitted", line):
                    has_gone = True
                    continue
                goal = re.search(r": error: `([^`]+)`", line)
                goals.append(goal[1] if goal else f"{os.path.basename(line.split(':')[0])} by hand")
        goals = list(dict.fromkeys(goals))
        if goals:
            return REFUSED, [*goals[:3], *(["a name is gone too"] if has_gone else [])]
        if "it calls `" in rest:
            return None, []
        if rest.startswith("could not tell"):
            return AT_LIMIT, []
        return (NAME_GONE if has_gone else REFUSED), []

    def alone(self, edit, status, lines, said_of):
        """What became of an edit that was tried alone, by the rules of `rt must-fail`."""
        unread = next((line for line in lines if is_unread(line, {file for file, _ in edit.lines})), None)
        if status == 1 and unread:
            return BAD, f"the prover cannot read it: {unread[:160]}"
        if status == 0:
            return PROVED, "the crate is still proved with it"
        if status == 1 and lines[-1].startswith("logic=not-proved"):
            told = [(name, *self.failed(name, rest, lines)) for name, rest in said_of.items()]
            told = [(name, kind, goals) for name, kind, goals in told if kind]
            # (its own function first, then one that failed by a goal)
            told.sort(key=lambda it: (it[0] not in edit.functions, it[1] != REFUSED, not it[2]))
            whole = {kind for _, kind, _ in told}
            where = f"{told[0][0]}{': ' if told[0][2] else ''}{', '.join(told[0][2])}" if told else first_error(lines)
            kind = NAME_GONE if whole == {NAME_GONE} else REFUSED
            lemma = rejected_lemma(lines) if kind == NAME_GONE else None
            if lemma:
                kind, where = REFUSED, f"{where}, by the lemma {lemma}"
            return kind, f"{where}{'' if edit.functions else ' (it changes a statement)'}"
        if status == 1 and any(re.search(r"\berror\[[\w-]+\]", line) for line in lines):
            return BAD, f"it does not compile: {next(line for line in lines if re.search(r'error', line))[:160]}"
        if status == 3:
            return AT_LIMIT, first_error(lines)
        return UNTRIED, f"its check ended with status {status}: {lines[-1][:160]}"


def rejected_lemma(lines):
    """A lemma that is rejected as it says something else now, and not since a name that it cites is gone."""
    for line in lines:
        at = re.match(r"\./proofs/(\w+)\.antt:\d+:\d+: error: `([^`]+)`: ", line)
        if at and not re.search(r"has no field|is not in scope|has no `|was not admitted", line):
            return f"{at[1]}: {at[2]}"
    return None


def first_error(lines):
    return next((line[:160] for line in lines if re.match(r"(\./)?\S+:\d+:\d+: error", line)), "")


def is_unread(line, changed):
    """Whether the prover could not read a text of src/, specs/ or an edited file, in place of finding it wrong."""
    at = re.match(r"(?:\./)?(\S+?):\d+:\d+: error: (?:(`[^`]*`): )?(.*)", line)
    if not at or at[1] not in changed and not at[1].startswith(("src/", "specs/")):
        return False
    said = re.sub(r"`[^`]*`", "", at[3])
    return not at[2] or bool(re.search(r"is not in scope|has no field|is no name|operand is missing|expected the end|cannot continue", said))


def free():
    found = re.search(r"MemAvailable:\s+(\d+)", read("/proc/meminfo"))
    return int(found[1])


def size(name):
    return sum(os.path.getsize(path) for path in texts(name, *PARTS).values())


def try_crates(chosen, crates, jobs):
    """Tries these edits of each crate, crates side by side and the largest first, and writes the ledger as each ends."""
    names, home_kit, tried, missed, began = list(chosen), kit(), 0, [], time.time()
    jobs = max(1, min(jobs or len(os.sched_getaffinity(0)), free() // NEED))
    with tempfile.TemporaryDirectory(prefix="edits-") as room:
        # rt runs programs as the user `nobody`, which has to reach the folders below.
        os.chmod(room, 0o711)
        prove_below(names, crates, room)

        def one(name):
            trial = Trial(name, crates, room, home_kit)
            before, start = (sums(name, crates), edit_sums(name)), time.time()
            outcomes = trial.try_all([path for path in edits_of(name) if edit_name(path) in chosen[name]])
            shutil.rmtree(trial.room, ignore_errors=True)
            return name, outcomes, before, trial, time.time() - start

        order = sorted(names, key=lambda it: -size(it) * (4 + len(chosen[it])))
        with ThreadPoolExecutor(jobs) as pool:
            for ended in as_completed([pool.submit(one, name) for name in order]):
                name, outcomes, before, trial, took = ended.result()
                wrong = {edit: it for edit, it in outcomes.items() if it[0] in FAULTS}
                print(f"{name}: {len(outcomes) - len(wrong)} of {len(outcomes)} refused, {trial.checks} checks, "
                      f"{trial.spent:.0f} s of processors, {took:.0f} s", flush=True)
                for edit, (kind, where) in sorted(wrong.items()):
                    print(f"  {name}/{edit} {kind}: {where}", flush=True)
                    missed.append(kind)
                tried += len(outcomes)
                if (sums(name, crates), edit_sums(name)) != before:
                    print(f"  {name} changed meanwhile, so the ledger has not what came of its edits")
                    missed.append(UNTRIED)
                elif all(kind != UNTRIED for kind, _ in outcomes.values()):
                    rows, said = read_ledger(), {edit: ": ".join(filter(None, it)) for edit, it in outcomes.items()}
                    write_ledger({**rows, name: noted(name, crates, rows, said)})
    print(f"{tried - len(missed)} passed, {len(missed)} failed, {time.time() - began:.0f} s")
    return 2 if UNTRIED in missed else 1 if missed else 0


def main():
    parser = argparse.ArgumentParser(prog="edits.sh", description=__doc__, formatter_class=argparse.RawDescriptionHelpFormatter, usage=argparse.SUPPRESS)
    parser.add_argument("--check", action="store_true", help=argparse.SUPPRESS)
    parser.add_argument("--changed", action="store_true", help=argparse.SUPPRESS)
    parser.add_argument("--owe", action="store_true", help=argparse.SUPPRESS)
    parser.add_argument("--jobs", type=int, default=0, help=argparse.SUPPRESS)
    parser.add_argument("crates", nargs="*", help=argparse.SUPPRESS)
    given = parser.parse_args()
    crates = listed()
    every = [name for name in crates if edits_of(name)]
    for name in given.crates:
        if name not in every:
            sys.exit(f"edits.sh: crates/{name}/more-edits has no edits")
    names = [name for name in every if name in given.crates] if given.crates else every
    if given.check:
        return check(crates, every)
    if given.owe:
        owe(names, crates)
        return 0
    chosen = {name: set(edit_sums(name)) for name in names}
    if given.changed:
        rows = read_ledger()
        kept = {name: row._replace(edits={edit: it for edit, it in row.edits.items() if edit in edit_sums(name)}) for name, row in rows.items()}
        write_ledger({name: row for name, row in kept.items() if name in every})
        chosen = {name: left_of(name, crates, rows)[0] | owed(name, rows) for name in names}
        chosen = {name: edits for name, edits in chosen.items() if edits}
    if not chosen:
        print("0 passed, 0 failed: no crate with edits has changed")
        return 0
    for it in (signal.SIGINT, signal.SIGTERM, signal.SIGHUP):
        signal.signal(it, end_all)
    try:
        return try_crates(chosen, crates, given.jobs)
    except Stopped:
        say("ended early; what was tried is in the ledger")
        return 130


if __name__ == "__main__":
    sys.exit(main())
