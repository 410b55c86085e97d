#!/usr/bin/env python3
"""Refuses words that the English of this repository does without, in pages, comments, doc comments and messages.

Each entry of STOP is a word or phrase that reads as a riddle to an engineer, with the established term. Files from before
this rule may keep the number of hits that checks/words.txt lists for them; a file with more, or a new file with any, is
refused, and a file that has fewer has its number lowered by --write. So the list can only shrink.

Usage: checks/words.py [--all | --write] [FILE..]
  no option  prints each hit in files with more hits than words.txt allows; status 1 if there is one
  --all      prints every hit
  --write    lowers the numbers in words.txt to what there is; adds no file and raises no number
"""
import collections
import os
import re
import subprocess
import sys

STOP = [
    (r"\btold\b", "printed, reported, passed"),
    (r"\bso many\b", "N, the number of"),
    (r"\bwhoever\b", "a process that, the caller that"),
    (r"\banew\b", "again, recreated"),
    (r"\bbeside\b", "compared with, next to, as well as"),
    (r"\bbut for\b", "except"),
    (r"\b(?:is|are|was|were) over\b", "has expired, has ended"),
    (r"(?:^|[.;:] )Where (?!(?:it|they|this|these|each|the)\b[^.?]*\?)", "If, When"),
    (r"\bwhere (?:there|it|they|he|one|none|no|all|some|any|a|an) (?:is|are|was|were|has|have)\b", "if, when"),
    (r"\b(?:gives?|given|gave|giving) back\b", "free, release, return"),
    (r"\b(?:lets?|letting) (?:it |them |one |all )?go\b", "release, unpin"),
    (r"(?<!user )(?<!= )\bnobody\b", "no process, no caller"),  # nobody is also a user
    (r"\bthe dead\b", "dead processes"),
    (r"\b[Ww]ho (?:copies|waits|asks|calls|changes|comes|dies|finds|has|is|does)\b", "a process that, the caller"),
    (r"\bstands? (?:there|whole|in the way)\b", "is"),
    (r"\bcomes? to (?:the same|its end|nothing)\b", "results in, ends"),
    (r"\b(?:is|are) made anew\b", "is recreated"),
    (r"\bin (?:his|her) place\b", "instead"),
]
# Refused in pages alone, until comments and messages are without them.
IN_PAGES = [
    (r"\b(?:tells?|telling)\b", "prints, reports, returns, shows"),
    (r"\b(?:stands?|stood|standing)\b", "is, represents, depends on"),
    (r"\bbehind (?!nginx)(?:the|it|them|that|each|its|one|a|an|another|there)\b", "after"),
    (r"\bin place of\b", "instead of"),
    (r"\btakes? the places? of\b(?! the old one)", "replaces"),
    (r"\| without it \|", "default"),
    (r"\b(?:he|his|him|himself|somebody|everybody|anybody)\b", "the process, the caller"),
    (r"\blook(?:s|ing)? for null\b", "check for null"),
    (r"\b(?:goes|go|going|went|gone) on\b", "continues"),
    (r"\bwhat (?:comes|came|becomes|became) of\b", "the result of"),
    (r"\bhand(?:s|ed|ing)? (?:in|out|on|over)\b", "pass, return"),
    (r"\b(?:it|that|which|rows?|keys?|they|values?|one) (?:is|are|was|were) (?:not )?there\b", "exists"),
    (r"\bin one another\b", "nested"),
    (r"\bwant of memory\b", "out of memory"),
    (r"\bby the clock\b", "wall time"),
    (r"(?:^|[.;:] )Who\b", "a process that, the caller"),
]


def compiled(words):
    return [(re.compile(word, re.IGNORECASE if word[0] == "\\" else 0), better) for word, better in words]


STOP, IN_PAGES = compiled(STOP), compiled(IN_PAGES)
# What docs/crates.sh and docs/reading.sh copy from comments into pages is counted where it is written.
COPIED = {"docs/ARCHITECTURE.md": "| `", "docs/READING.md": "- [`"}

LINE_COMMENT = {".rt": "//", ".antt": "--", ".c": "//", ".h": "//", ".php": "//", ".sh": "#", ".py": "#"}
MESSAGE = re.compile(r"\b(?:echo|printf|say|tell|fprintf|php_error_docref|php_log_err|zend_throw\w*|print|fwrite|die|exit)\b(.*)")
STRING = re.compile(r"\"((?:[^\"\\]|\\.)*)\"|'((?:[^'\\]|\\.)*)'")
# Words of code, not of prose: between backquotes, and the target of a link.
CODE = re.compile(r"`[^`]*`|(?<=\])\([^)]*\)")


def files(named):
    if named:
        return named
    found = subprocess.run(["git", "ls-files", "-co", "--exclude-standard"], capture_output=True, text=True, check=True)
    return [it for it in found.stdout.split("\n") if it]


def kind_of(path):
    end = os.path.splitext(path)[1]
    if end == ".md":
        return "page"
    if end in LINE_COMMENT:
        return end
    if end == "" and os.path.isfile(path):
        with open(path, "rb") as it:
            head = it.read(30)
        return ".sh" if head.startswith(b"#!") and b"sh" in head.split(b"\n")[0] else None
    return None


def prose(path, kind):
    """Yields the number of each line that has prose, with that prose."""
    with open(path, encoding="utf-8", errors="replace") as it:
        lines = it.read().split("\n")
    is_code = is_comment = False
    for number, line in enumerate(lines, 1):
        if kind == "page":
            if line.startswith("```"):
                is_code = not is_code
            is_copied = path in COPIED and line.startswith(COPIED[path])
            if not is_code and not is_copied and not line.startswith("    "):
                yield number, CODE.sub("``", line)
            continue
        text = []
        if kind in (".c", ".h", ".php"):
            rest = line
            while rest:
                if is_comment:
                    inside, end, rest = rest.partition("*/")
                    text.append(inside.strip().lstrip("*").strip())
                    is_comment = not end
                else:
                    before, begin, rest = rest.partition("/*")
                    is_comment = bool(begin)
        mark = LINE_COMMENT[kind]
        at = line.find(mark)
        if at >= 0 and (mark == "#" or not line[:at].rstrip().endswith(":")) and not (mark == "#" and at and line[at - 1] in "$({&"):
            text.append(line[at:].lstrip(mark + "!/ "))
        said = MESSAGE.search(line)
        if said and not (text and kind != ".rt"):
            text += [one or other for one, other in STRING.findall(said[1])]
        if text:
            yield number, CODE.sub("``", " ".join(text))


def hits(path, kind):
    for number, text in prose(path, kind):
        for word, better in STOP + (IN_PAGES if kind == "page" else []):
            for found in word.finditer(text):
                # The definitions have it as their own word, which the glossary explains: a load of that word returns it.
                if kind == ".antt" and found[0] == "told":
                    continue
                yield number, found[0].strip(" .;:"), better


def allowed():
    numbers = collections.Counter()
    if os.path.exists("checks/words.txt"):
        with open("checks/words.txt", encoding="utf-8") as it:
            for line in it:
                number, _, path = line.strip().partition(" ")
                if path and number.isdigit():
                    numbers[path] = int(number)
    return numbers


def main(words):
    if words and words[0] in ("-h", "--help"):
        print(__doc__.strip())
        return 0
    mode = words.pop(0) if words and words[0].startswith("--") else ""
    if mode not in ("", "--all", "--write", "--begin"):
        print("usage: checks/words.py [--all | --write] [FILE..]", file=sys.stderr)
        return 2
    os.chdir(os.path.join(os.path.dirname(os.path.abspath(__file__)), ".."))
    limit, found, status = allowed(), {}, 0
    for path in files(words):
        kind = kind_of(path)
        # The list of words has each of them, and the cases are texts of other programs.
        if kind is None or path == "checks/words.py" or not os.path.isfile(path):
            continue
        found[path] = list(hits(path, kind))
    for path, there in sorted(found.items()):
        if mode == "--all" or (mode == "" and len(there) > limit[path]):
            status = status or (mode == "")
            for number, word, better in there:
                print(f"{path}:{number}: '{word}': {better}")
            if mode == "":
                print(f"{path}: {len(there)} of these words, {limit[path]} allowed by checks/words.txt")
    if mode in ("--write", "--begin"):
        with open("checks/words.txt", "w", encoding="utf-8") as it:
            for path, there in sorted(found.items()):
                number = len(there) if mode == "--begin" else min(len(there), limit[path])
                if number:
                    it.write(f"{number} {path}\n")
    return int(status)


if __name__ == "__main__":
    sys.exit(main(sys.argv[1:]))
