#!/usr/bin/env python3
"""Writes READING.md: the definitions that the clauses of `run` and of the library for C rest on, first those of an hour,
then the others by subject. It follows the imports word by word, from the clauses through the definitions that they cite,
and the words of Rattle's kit through the kit. What the page says of another kit than the one here is kept.
"""
import glob, os, re, shutil, sys

import written

CRATE, FUNCTION, MAIN = "apcu_play", "run", "replayed"
# The definitions by which that clause reaches what it says only of a part of the program.
PARTS = {"AnswersSeed": "generated runs", "AnswersOutput": "verdicts", "map_text_after": "maps"}
# What is read in an hour: a file, and of the two that serve all tasks only the definitions that are named.
SPINE = [
    ("apcu_play/Run", "a text was written whole", ["WritesAll", "Replays"]),
    ("apcu_play/Tasks", "what is printed for the input's scripts", ["WasRead", "played_text", "AnswersInput", "AnswersTask"]),
    ("apcu_play/Inputs", "which scripts the input spells", ["AreCrew", "AreFew"]),
    ("script_read/Play", "what a worker asks next, and the play of a journal", None),
    ("apcu_model/History", "events, windows, and which masks are legal", None),
    ("apcu_model/Sequential", "the reply to each request, and the cache after it", None),
    ("apcu_model/Cache", "rows and counts", None),
    ("apcu_model/Expiry", "when a row is expired", None),
    ("apcu_model/Lookups", "what a look-up that counts leaves", None),
    ("apcu_model/Change", "how rows leave, how room is made, how a row comes in", None),
    ("reply_text/Output", "the text of an output", None),
    ("reply_text/Lines", "the text of a call", None),
]
# The library for C: its call, and what is read of it in an hour, down to what the list above has.
LIBRARY, CALL = "crates/cache_c/src/lib.rt", "cache_ask_unchecked"
LIBRARY_SPINE = [
    ("cache_c/Memory", "what is at a pointer, before a call and after it", ["lies", "stands_at", "asks_at", "has_asked"]),
    ("cache_c/Asked", "the request that the numbers of C ask for, and what an answer says",
        ["scalar_value", "value_of", "store_if_value", "request_of", "is_short", "asked_for", "IsValueBy", "IsToldBy",
         "IsDone", "IsNoRequest", "MayAsk", "IsAnswered", "TakesSeat", "KeepsSeats"]),
    ("cache_c/Standing", "when words are a cache, and which string a seat holds",
        ["cache_words", "words_memory", "seats_of", "StandsForCache", "HasDone", "StandAt", "IsHeld"]),
    ("cache_c/Seats", "the image that a seat holds", None),
    ("cache_core/CoreCache", "the cache that the words of a segment are", None),
    ("cache_core/Events", "what an event answers and leaves", ["IsBy", "IsStep", "Does"]),
]
# The other files, by what a reader needs them for.
SUBJECTS = {
    "What lines mean": "apcu_play/Inputs script_read/Grammar script_read/Table script_read/Arguments script_read/Calls "
        "script_read/GenParts script_read/Clock script_read/Budgets script_read/Patterns",
    "Values and their text": "notation/Notation notation/Keys php_graph/Graph php_graph/Building php_graph/Numbers "
        "php_graph/Size byte_box/ByteStrings seg_words/Layout",
    "Further requests of the cache": "apcu_model/Counters apcu_model/Generators apcu_model/Levels apcu_model/Chunks "
        "apcu_model/SlotOrder apcu_model/PatternMatches apcu_model/Infos apcu_model/Conf seg_words/Gaps",
    "What calls print": "reply_text/Replies reply_text/Items reply_text/PoolReplies",
    "Pools": "simple_pool/Requests simple_pool/Names",
    "Bundles": "preload_set/Bundle preload_set/Loader crew_play/PlayedScripts",
    "Options": "conf_read/Options conf_read/Numbers conf_read/Tasks conf_read/Command",
    "Generated runs": "crew_play/GeneratedRuns play_laws/Observer play_laws/Summary "
        "script_read/GeneratedScripts",
    "Verdicts": "run_verify/Verdicts script_search/ReadPatterns",
    "Maps": "seg_report/Lines seg_report/Parts seg_report/Fits entry_slots/Lists sma_blocks/Live",
    "Other tasks, faults and statuses": "apcu_play/Run apcu_play/Tasks apcu_play/Message script_read/Gives script_read/Reading "
        "preload_set/Gives preload_set/Reading notation/Reading notation/Marks notation/Place io_edges/Reading "
        "io_edges/Faults",
}
USE = re.compile(r"^ *(?:ghost |pub |unfoldable )*use Rattle\.([\w.]+?)(?:\.\{([^}]*)\}| as (\w+))?;?$", re.M)
HEAD = re.compile(r"^(?:(?:pub|abbrev|record|data|unfoldable|irreducible) )+(\S+) ?(?::|\(|\{|where|$)", re.M)
TYPE = r"^(?:pub )?(?:struct|enum|trait|const|type) {}\b"


class Part:
    """A definition: which lines it has, with the comment in front of it, and the words in it."""

    def __init__(self, lines, begin=0):
        self.lines, self.begin, self.end = len(lines), begin + 1, begin + len(lines)
        while self.end > self.begin and (not lines[self.end - begin - 1] or lines[self.end - begin - 1].startswith("-- --")):
            self.end -= 1
        text = "\n".join(line.split("--")[0] for line in lines)
        self.text = text
        self.words = set(re.findall(r"[\w']+", text))
        self.dotted = set(re.findall(r"\b(\w+)\.(\w+)", text))


class File:
    """A file of specs/: what it imports, by word, and its definitions, by word."""

    def __init__(self, path):
        text = open(path, encoding="utf-8").read()
        self.path, self.lines = path, text.count("\n")
        self.imports, self.aliases, self.parts = {}, {}, {}
        self.about = comment_at(text, "--")
        for module, names, alias in USE.findall(text):
            if alias:
                self.aliases[alias] = module
            for name in filter(None, (name.strip() for name in names.split(","))):
                old, _, new = name.partition(" as ")
                self.imports[new or old] = (module, old)
        self.divide(text.split("\n"))

    def divide(self, lines):
        heads = [at for at, line in enumerate(lines) if HEAD.match(line)]
        starts = [begin_of(lines, at) for at in heads] + [len(lines)]
        for at, begin, end in zip(heads, starts, starts[1:]):
            part = Part(lines[begin:end], begin)
            self.parts[HEAD.match(lines[at]).group(1)] = part
            if " data " in f" {lines[at]}":
                for line in lines[at + 1:end]:
                    made = re.match(r"  (\w+) :", line)
                    if made:
                        self.parts.setdefault(made.group(1), part)


def comment_at(text, mark):
    """The first sentence of the comment that a file begins with."""
    found = []
    for line in text.split("\n"):
        if not line.startswith(mark):
            break
        found.append(line[len(mark):].strip())
    words = " ".join(found)
    return re.split(r"(?<=\.) (?=[A-Z`])", words)[0]


def begin_of(lines, at):
    while at > 0 and lines[at - 1].startswith("--") and not lines[at - 1].startswith("-- --"):
        at -= 1
    return at


# ---- what a clause reaches

class Reading:
    def __init__(self, without=()):
        self.files, self.words, self.types, self.kit = {}, {}, {}, set()
        self.uses = {}
        self.without, self.met = set(without), set()

    def file(self, path):
        if path not in self.files:
            self.files[path] = File(path)
        return self.files[path]

    def target(self, module, word):
        """The definition of a word of a module: a file of specs/ with the word in it, a type of src/, or the kit."""
        crate, _, rest = module.partition(".")
        kind, _, inner = rest.partition(".")
        if not os.path.isdir(f"crates/{crate}") or kind != "specs":
            self.kit.add((module, word))
            return None
        if inner.split(".")[0] in ("declared", "contracts"):
            names = [name for name in inner.split(".")[1:] if not name.startswith("The")]
            path = self.source_of(crate, names)
            self.types.setdefault(path, set()).add(names[-1] if names[-1][0].isupper() else word)
            return None
        file = self.file(f"crates/{crate}/specs/{inner.replace('.', '/')}.antt")
        if word not in file.parts and word in file.imports:
            return self.target(*file.imports[word])
        return (file, word) if word in file.parts else None

    @staticmethod
    def source_of(crate, names):
        """The file of src/ with a declared type: its modules, and then its name."""
        for count in range(len(names), 0, -1):
            for path in (f"crates/{crate}/src/{'/'.join(names[:count])}.rt", f"crates/{crate}/src/{names[count - 1]}.rt"):
                if os.path.isfile(path):
                    return path
        return f"crates/{crate}/src/lib.rt"

    def cited(self, file, part):
        """What a definition, or a clause, cites: words of other files or of its own."""
        names = {name for name in file.parts if name in part.words or has_signs(name, part.text)}
        targets = [(file, name) for name in file.parts if name in names]
        for name, (module, old) in file.imports.items():
            if name in part.words or has_signs(name, part.text):
                targets.append(self.target(module, old))
        for alias, module in file.aliases.items():
            targets += [self.target(module, word) for head, word in sorted(part.dotted) if head == alias]
        return [target for target in targets if target]

    def take(self, file, part):
        for other, word in self.cited(file, part):
            if word in self.without:
                self.met.add(word)
                continue
            found = other.parts[word]
            if other is not file:
                used = self.uses.setdefault(file.path, [])
                used += [other.path] * (other.path not in used)
            if found not in self.words.setdefault(other.path, []):
                self.words[other.path].append(found)
                self.take(other, found)


def has_signs(name, text):
    """An operator is cited if all its signs are."""
    return "◌" in name and all(sign in text for sign in name.split("◌") if sign)


def clauses_of(path):
    """The clauses of the function by their labels, and its signature."""
    text = open(path, encoding="utf-8").read()
    head = text[re.search(rf"^pub fn {FUNCTION}\b", text, re.M).start():].split("\n{", 1)[0]
    head = "\n".join(line for line in head.split("\n") if not line.strip().startswith("//"))
    signature, *clauses = re.split(r"^    (?:ensures|requires)\b", head, flags=re.M)
    return signature, {re.match(r" (\w*)", clause).group(1): clause for clause in clauses}


def read_clauses(path, labels, without=()):
    reading, file = Reading(without), File(path)
    signature, clauses = clauses_of(path)
    reading.words[path], file.parts = [], {}
    for label, clause in clauses.items():
        if labels is None or label in labels:
            reading.take(file, Part(clause.split("\n")))
    if reading.met != reading.without:
        sys.exit(f"docs/reading.sh: no clause reaches {', '.join(sorted(reading.without - reading.met))}")
    source = open(path, encoding="utf-8").read()
    for module, names in re.findall(r"^use (\w+)::(?:\w+::)*\{?([\w, ]+)\}?;", source, re.M):
        crate = CRATE if module == "crate" else module
        for name in names.replace(" ", "").split(","):
            if re.search(rf"\b{name}\b", signature) and os.path.isdir(f"crates/{crate}"):
                for other in glob.glob(f"crates/{crate}/src/**/*.rt", recursive=True):
                    if re.search(TYPE.format(name), open(other, encoding="utf-8").read(), re.M):
                        reading.types.setdefault(other, set()).add(name)
    return reading


def crate_of(path):
    return path.split("/")[1]


# ---- the kit

def kit_at():
    """The path of Rattle's kit, and its name; None if it is not on the path."""
    program = shutil.which("rt")
    top = os.path.dirname(os.path.dirname(os.path.realpath(program))) if program else ""
    if not os.path.isfile(f"{top}/KIT-ID"):
        return None, None
    return f"{top}/rattle", open(f"{top}/KIT-ID", encoding="utf-8").read().split()[0]


class Kit:
    """The kit's definitions that some words of it reach. What they cite outside of its crates is not followed."""

    def __init__(self, top):
        self.top, self.files, self.words = top, {}, {}

    def file(self, module):
        """The file of a module, which a crate may pass on from another one."""
        crate, _, rest = module.partition(".")
        kind, _, inner = rest.partition(".")
        path = f"{self.top}/{crate}/{kind}/{inner.replace('.', '/')}.antt"
        if os.path.isfile(path):
            if path not in self.files:
                self.files[path] = File(path)
            return self.files[path]
        names, lib = inner.split("."), f"{self.top}/{crate}/{kind}/Lib.antt"
        passed = re.search(rf"^pub use Rattle\.([\w.]*\b{names[0]})$", open(lib, encoding="utf-8").read(), re.M) \
            if names[0] and os.path.isfile(lib) else None
        return self.file(".".join([passed.group(1)] + names[1:])) if passed else None

    def take(self, module, word):
        file = self.file(module)
        if file and word in file.parts:
            found = file.parts[word]
            if found not in self.words.setdefault(file.path, []):
                self.words[file.path].append(found)
                self.follow(file, found)
        elif file and word in file.imports:
            self.take(*file.imports[word])

    def follow(self, file, part):
        for name in file.parts:
            if name in part.words or has_signs(name, part.text):
                self.take(file.path[len(self.top) + 1:-len(".antt")].replace("/", "."), name)
        for name, (module, old) in file.imports.items():
            if name in part.words or has_signs(name, part.text):
                self.take(module, old)
        for alias, module in file.aliases.items():
            for head, word in sorted(part.dotted):
                if head == alias:
                    self.take(module, word)


def kit_part(reading, old):
    """What the page says of the kit: unchanged, if the kit that it names is not here."""
    top, name = kit_at()
    before = re.search(r"^## The kit\n.*", old, re.M | re.S)
    named = re.search(r"`(rattle-kit-\w+)`", before.group()) if before else None
    if before and (not top or sys.argv[1:] == ["--check"] and named and named.group(1) != name):
        return before.group()
    kit = Kit(top)
    for module, word in sorted(reading.kit):
        kit.take(module, word)
    by_crate = {}
    for path, parts in kit.words.items():
        crate = path[len(top) + 1:].split("/")[0]
        by_crate[crate] = by_crate.get(crate, 0) + sum(part.lines for part in parts)
    count = sum(len(parts) for parts in kit.words.values())
    listed = [f"`{crate}` {lines:,}" for crate, lines in sorted(by_crate.items(), key=lambda item: -item[1])]
    return f"""## The kit

These definitions cite those of the kit. In `{name}` the clauses reach {count:,} of them: \
{sum(by_crate.values()):,} lines in {few(len(kit.words), "file")}. By crate: {", ".join(listed)}. The kit's logic, \
with numbers, lists and paths, is not counted.
"""


# ---- the page

def few(number, word):
    return f"{number} {word}" + ("" if number == 1 else "s")


def lines_of(reading, paths):
    return sum(part.lines for path in paths for part in reading.words.get(path, []))


def path_of(name):
    crate, _, file = name.partition("/")
    return f"crates/{crate}/specs/{file}.antt"


def link(name):
    return f"[`{name}`](../{path_of(name)})"


def spans(parts):
    """The lines of these definitions, those of neighbours together."""
    found = []
    for part in sorted(parts, key=lambda part: part.begin):
        if found and part.begin <= found[-1][1] + 1:
            found[-1] = (found[-1][0], part.begin + part.lines - 1, part.end)
        else:
            found.append((part.begin, part.begin + part.lines - 1, part.end))
    return ", ".join(f"{begin}-{end}" for begin, _, end in found)


def clause_span(path):
    """The lines of the clause in its source."""
    lines = open(path, encoding="utf-8").read().split("\n")
    begin = next(at for at, line in enumerate(lines) if line.startswith(f"    ensures {MAIN} "))
    end = begin
    while not lines[end].endswith("}"):
        end += 1
    while lines[begin - 1].startswith("    //"):
        begin -= 1
    return begin + 1, end + 1


def library():
    """The rows of the library for C, how many lines they have, and how many all that its call's clauses reach."""
    lines = open(LIBRARY, encoding="utf-8").read().split("\n")
    head = next(at for at, line in enumerate(lines) if f" fn {CALL}(" in line)
    begin = next(at for at in range(head, len(lines)) if lines[at].startswith("    requires"))
    end = lines.index("{", begin)
    reading, file = Reading(), File(LIBRARY)
    file.parts = {}
    reading.take(file, Part(lines[begin:end]))
    rows, total = f"| [`cache_c/src/lib.rt`](../{LIBRARY}) | {begin + 1}-{end} | the clauses |\n", end - begin
    for name, about, words in LIBRARY_SPINE:
        parts = [part for part in reading.words.get(path_of(name), [])
                 if words is None or any(reading.files[path_of(name)].parts.get(word) is part for word in words)]
        if not parts or words is not None and len(parts) != len(words):
            sys.exit(f"docs/reading.sh: {CALL} does not reach all that is named of {name}")
        total += sum(part.lines for part in parts)
        rows += f"| {link(name)} | {spans(parts)} | {about} |\n"
    return rows, total, lines_of(reading, list(reading.words)), len(reading.words)


def spine(root, played):
    begin, end = clause_span(root)
    rows = f"| [`{CRATE}/src/{os.path.basename(root)}`](../{root}) | {begin}-{end} | the clause |\n"
    total, done = end - begin + 1, {}
    for name, about, words in SPINE:
        file = played.file(path_of(name))
        named = [file.parts[word] for word in words or []]
        parts = [part for part in played.words[path_of(name)] if words is None or part in named]
        total += sum(part.lines for part in parts)
        done[path_of(name)] = {id(part) for part in parts}
        rows += f"| {link(name)} | {spans(parts)} | {about} |\n"
    return rows, total, done


def subjects(reading, main, done):
    """The lists of the other files, and each file in exactly one."""
    met = [path_of(name) for names in SUBJECTS.values() for name in names.split()]
    rest = {path for path in reading.words if path.endswith(".antt")} - set(met) - {path_of(name) for name, _, _ in SPINE}
    gone = [path for path in met if not reading.words.get(path)]
    if rest or gone or len(met) != len(set(met)):
        sys.exit(f"docs/reading.sh: in no subject: {sorted(rest)}; reached no more: {gone}; or twice")
    text = ""
    for title, names in SUBJECTS.items():
        items, total = "", 0
        for name in names.split():
            path = path_of(name)
            lines = sum(part.lines for part in reading.words[path] if id(part) not in done.get(path, ()))
            total += lines
            items += f"- {link(name)}{'' if path in main.words else '*'} {lines}: {reading.files[path].about}\n"
        text += f"### {title}: {total} lines\n\n{items}\n"
    return text


def page(old):
    root = next(path for path in sorted(glob.glob(f"crates/{CRATE}/src/*.rt"))
                if re.search(rf"^pub fn {FUNCTION}\b", open(path, encoding="utf-8").read(), re.M))
    reading, main, played = read_clauses(root, None), read_clauses(root, [MAIN]), read_clauses(root, [MAIN], PARTS)
    all_of, own, own_played = ([path for path in each.words if path != root] for each in (reading, main, played))
    alone = []
    for word, name in PARTS.items():
        rest = read_clauses(root, [MAIN], [word])
        alone.append(f"{lines_of(main, own) - lines_of(rest, [path for path in rest.words if path != root])} for {name}")
    # A definition of one reading is another object in the next, so what the spine has is known by its lines.
    rows, total, done = spine(root, played)
    begins = {path: {part.begin for part in played.words[path] if id(part) in done[path]} for path in done}
    done = {path: {id(part) for part in reading.words[path] if part.begin in begins[path]} for path in begins}
    types = {}
    for path, names in sorted(reading.types.items()):
        types.setdefault(path.split("/")[1], []).append(
            f"`{path.split('/src/')[1]}` ({', '.join(f'`{name}`' for name in sorted(names))})")
    library_rows, library_total, reached, reached_files = library()
    typed = "".join(f"- `{crate}`: {', '.join(files)}\n" for crate, files in types.items())
    return f"""# What to read

There are two promises, and each rests on definitions:

- **The program's**: the clauses of `{CRATE}::{FUNCTION}`, which has no `requires`. The clause `{MAIN}`, about what is printed, \
has two premises: the arguments ask for a cache, and the run ended with `Done`. It applies to a source and a sink whose \
contracts name their bytes, and reaches {lines_of(main, own):,} lines of definitions in {len(own)} files; all clauses reach \
{lines_of(reading, all_of):,} in {len(all_of)}. Of the first, {", ".join(alone[:-1])} and {alone[-1]} serve only these: what \
a play of the input's scripts prints without a map rests on {lines_of(played, own_played):,} lines in {len(own_played)} files.
- **The library's**: the clauses of each exported function of `crates/cache_c`. Their premise (`requires*`) is that the call owns \
the cache that `cache_new` made, and its arguments; so calls must be serialized.

Read *An hour* or *The library for C*, then *By need*. `docs/reading.sh` generates this page from the imports of the \
definitions that a clause reaches. Line counts include the comment above a definition.

## How to read a definition

- `f : A → B` is a function. `(x : A) → P`: for each x, P. Between statements `→` is *implies*, `×` *and*, `⊎` *or*, \
`¬` *not*, and `≡` *equals*.
- `(x : A) × P`: there is an x with P.
- `Unit {{0}}` is always true, and `⊥` never.
- A definition whose type ends in `Type 0` is a statement; one that ends in `Bool`, `ℕ`, `List` .. is computed. `IsTrue b` says that `b` is `true`.
- `record` has named fields; as a statement it holds if each field does. `x.f` is a field, `p.0` a pair's first part, and \
`record x {{ f = e }}` is `x` with another `f`.
- `data` lists the constructors of a type. `abbrev` and `unfoldable` name what is right of `=`. Of several lines the first \
that matches counts; `_` matches all.
- `[]` is the empty list, `x ∷ xs` prepends x, `++` concatenates. `λ x. e` is a function of x.
- `Option` is `None` or `Some x`. `IfSome o (λ s. P)`: if `o` is `Some s`, then P.
- Bytes, places and seconds are `ℕ`; a text is a list of bytes; `codes "a"` is that of a literal.
- In a clause `x.now` is the referent of a reference; of a `&mut`, `x.old` is before the call and `x.new` after it. `S.left` \
is what a source has left, `K.held` what a sink holds; `None` if its contract does not name them.

The kit's `ANTT.md` and `CONTRACTS.md` have the rest; [GLOSSARY.md](GLOSSARY.md) defines this project's terms.

## An hour

{total} lines, from the program's promise down.

| file | lines | contents |
|---|---|---|
{rows}
## The library for C

`{CALL}` is the call by which C asks for an event. Its clauses rest on {reached:,} lines in {few(reached_files, "file")}: \
first the {library_total} of this table, then the files of *An hour* from `apcu_model/History` on. Read the other exports \
likewise: a clause of `crates/cache_c/src/lib.rt`, and what it cites of `cache_c/Memory`; of a shared look-up \
(`cache_find_shared_unchecked`), of `cache_c/Shared`.

- A clause with a star is of separation logic: `sem 𝓛 F` says that the formula `F` holds of the memory that the call owns. \
`fsep F G`: `F` holds of one part of it and `G` of another. `fex A (λ x. F)`: there is an `x` in `A` with `F`. `ftrue` holds of any \
memory, so `fex P (λ _. ftrue)` is the statement `P`.
- `lies_at T full_share p x`: the value `x` of type `T` is at the pointer `p`, and the call owns all of it. `room_at T p` is \
memory for one. `the_row` is the type of the struct that its import names.
- `ghost cache: {{ .. }}` names the cache before the call. It is not an argument in C.

| file | lines | contents |
|---|---|---|
{library_rows}
## By need

Each number counts the lines that are reached and are not part of *An hour*. A star: `{MAIN}` does not reach the file. Some \
definitions for generated runs, verdicts or maps are in files of other subjects, so the numbers at the top are larger.

{subjects(reading, main, done)}## Types

Imports through `declared` are types of `src/`. A clause uses their fields and variants, the ghost members of a trait, \
or the `impl Model`.

{typed}
{kit_part(reading, old)}"""


PAGE = "docs/READING.md"
is_checked = written.only_checks("reading.sh", __doc__)
written.put(PAGE, page(written.read(PAGE) if os.path.isfile(PAGE) else ""), "reading.sh", is_checked)
