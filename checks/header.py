#!/usr/bin/env python3
"""That capi/cache_c.h says of the library what the library is: the numbers of its enums, the fields of its structs and the
types of its exports are those of crates/cache_c/src, and the clauses of `header_is_right` (specs/Header.antt) have each of
these numbers, the size of each struct and the order of its fields.

Usage: checks/header.py
"""
import glob
import os
import re
import sys

HEADER, CLAUSES = "capi/cache_c.h", "crates/cache_c/specs/Header.antt"
# The structs of the library by their names in the header.
STRUCTS = {"Shape": "cache_shape", "Ask": "cache_request", "Answer": "cache_answer", "ToldCounts": "cache_counts",
           "ToldRow": "cache_row", "Listing": "cache_listing", "Gap": "cache_gap", "View": "cache_view",
           "Found": "cache_found"}
TYPES = {"bool": "bool", "u8": "uint8_t", "u32": "uint32_t", "i64": "int64_t", "u64": "uint64_t", "usize": "size_t", **STRUCTS}
BYTES = {"uint32_t": 4, "int64_t": 8, "uint64_t": 8}
# What the header has of its own: an answer where a pointer is null, and what the functions return that its user defines.
OWN_NUMBERS, OWN_STRUCTS = {"CACHE_NO_POINTER"}, {"cache_tried"}
faults = []


def read(path):
    with open(path, encoding="utf-8") as file:
        return file.read()


def shown(value):
    if isinstance(value, list):
        return ", ".join(" ".join(part) if isinstance(part, tuple) else part for part in value)
    return "none" if value is None else value


def compare(what, one, other, where):
    """Two dictionaries with the same keys and values."""
    for name in sorted({*one, *other}):
        if one.get(name) != other.get(name):
            faults.append(f"{what} {name}: {shown(one.get(name))} in {HEADER}, {shown(other.get(name))} in {where}")


# --- the header ---


def c_type(words):
    """A type as C writes it, without the name behind it."""
    return re.sub(r" ?\* ?", " *", re.sub(r"\b(?:struct|enum) ", "", words).strip()).strip()


class Header:
    """The numbers of the enums, the fields of the structs, and the types of the exports: what is returned, then each argument."""

    def __init__(self, text):
        text = re.sub(r"\s+", " ", re.sub(r"/\*.*?\*/", " ", text, flags=re.S))
        self.numbers, self.structs, self.exports = {}, {}, {}
        for body in re.findall(r"\benum(?: \w+)? \{(.*?)\}", text):
            value = -1
            for name, number in re.findall(r"(\w+)(?: = (\d+))?(?:,|$)", body.replace(" ,", ",").strip()):
                value = int(number) if number else value + 1
                self.numbers[name] = value
        for before, body, behind in re.findall(r"\bstruct(?: (\w+))? \{(.*?)\} ?(\w*);", text):
            self.structs[before or behind] = [
                (c_type(kind), name) for kind, names in re.findall(r"([\w *]*?\b\w+) ([\w, ]+);", body)
                for name in names.replace(" ", "").split(",")]
        for kind, name, arguments in re.findall(r"([\w ]+\b) (cache_size|cache_\w+_unchecked)\(([^()]*)\);", text):
            if not kind.strip().startswith("return"):
                parts = [] if arguments.strip() == "void" else arguments.split(",")
                self.exports[name] = [c_type(kind)] + [c_type(re.sub(r"\w+\s*$", "", part)) for part in parts]


# --- the library ---


def of_rust(kind):
    """The types in C of an argument or a result."""
    for begin, before in (("&[", "const "), ("&", "const "), ("*mut ", "")):
        if kind.startswith(begin):
            what = kind[len(begin):].strip("[]")
            return [f"{before}{TYPES.get(what, what)} *"] + (["size_t"] if begin == "&[" else [])
    return [] if kind == "Global" else [TYPES.get(kind, kind)]


class Library:
    def __init__(self):
        self.numbers, self.structs, self.exports = {}, {}, {}
        for path in sorted(glob.glob("crates/cache_c/src/*.rt")):
            text = re.sub(r"^ *//.*\n", "", read(path), flags=re.M)
            for name, number in re.findall(r"^pub const (\w+): u32 = (\d+);", text, re.M):
                self.numbers[f"CACHE_{name}"] = int(number)
            for name, body in re.findall(r"#\[repr\(C\)\]\n(?:#[^\n]*\n)*pub struct (\w+) \{\n(.*?)^\}", text, re.M | re.S):
                self.structs[STRUCTS.get(name, name)] = [
                    (TYPES.get(kind, kind), field) for field, kind in re.findall(r"pub (\w+): (\w+),", body)]
            for name, arguments, result in re.findall(
                    r'^pub (?:unsafe )?extern "C" fn (\w+)\((.*?)\)(?: -> (\w+))?\n', text, re.M | re.S):
                kinds = re.findall(r"\w+: ([^,]+?)\s*(?:,|$)", arguments.strip())
                self.exports[name] = of_rust(result)[:1] + [each for kind in kinds for each in of_rust(kind)]


# --- the clauses ---


class Clauses:
    """The numbers, the size of each struct and its fields in their order."""

    def __init__(self, text):
        self.numbers = {f"CACHE_{name}": int(number)
                        for name, number in re.findall(r": \w+\.([A-Z_]+) ≡ (\d+)$", text, re.M)}
        named = re.findall(r"^use Rattle\.cache_c\.specs\.contracts\.\w+\.(\w+) as (\w+)$", text, re.M)
        laid = {short: STRUCTS.get(name, name) for name, short in named}
        self.sizes = {laid[name]: int(number)
                      for name, number in re.findall(r"layout (\w+)\.the_row\) ≡ (\d+)$", text, re.M)}
        self.orders = {}
        for line in text.split("\n"):
            begun = re.search(r"\((\w) : (\w+)\) → \w+\.the_type\.as_values", line)
            if begun:
                letter, fields = begun[1], self.orders.setdefault(STRUCTS.get(begun[2], begun[2]), [])
            elif line and not line.startswith(" "):
                letter = None
            if self.orders and letter:
                fields += re.findall(rf"(?<![\w.]){letter}\.(\w+)", line.split("as_values")[-1])


def size_of(structs, name):
    """The bytes of a struct and its alignment, as the C of x86_64 and aarch64 lays it out."""
    at = widest = 0
    for kind, _ in structs[name]:
        many, wide = size_of(structs, kind) if kind in structs else (BYTES.get(kind, 1),) * 2
        at, widest = (at + wide - 1) // wide * wide + many, max(widest, wide)
    return (at + widest - 1) // widest * widest, widest


def main():
    os.chdir(os.path.dirname(os.path.dirname(os.path.abspath(__file__))))
    header, library, clauses = Header(read(HEADER)), Library(), Clauses(read(CLAUSES))
    numbers = {name: number for name, number in header.numbers.items() if name not in OWN_NUMBERS}
    structs = {name: fields for name, fields in header.structs.items() if name not in OWN_STRUCTS}
    compare("number", numbers, library.numbers, "crates/cache_c/src")
    compare("number", numbers, clauses.numbers, CLAUSES)
    compare("struct", structs, library.structs, "crates/cache_c/src")
    compare("size of", {name: size_of(structs, name)[0] for name in structs}, clauses.sizes, CLAUSES)
    compare("fields of", {name: [field for _, field in fields] for name, fields in structs.items()}, clauses.orders, CLAUSES)
    compare("export", header.exports, library.exports, "crates/cache_c/src")
    sys.exit("\n".join(faults) if faults else 0)


main()
