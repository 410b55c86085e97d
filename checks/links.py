#!/usr/bin/env python3
"""That links of the pages, and paths of this repository in backquotes, lead to files, except for paths of what is built.

Usage: checks/links.py
"""
import glob
import os
import re
import sys

LINK = re.compile(r"\]\(([^)#:\s]+)(?:#[^)]*)?\)")
PATH = re.compile(r"`((?:bench|capi|checks|crates|docs|examples|php)/[\w./-]*)")
BUILT = re.compile("NAME|/out/|/modules/")
# The frame of a page of the folder above, with its links.
FRAME = "docs/differences/page.md"


def main():
    os.chdir(os.path.dirname(os.path.dirname(os.path.abspath(__file__))))
    lost = 0
    for page in sorted(glob.glob("**/*.md", recursive=True)):
        if page == FRAME:
            continue
        with open(page, encoding="utf-8") as file:
            text = file.read()
        named = [(link, os.path.join(os.path.dirname(page), link)) for link in LINK.findall(text)]
        named += [(path, path) for path in PATH.findall(text) if not BUILT.search(path)]
        for name, path in named:
            if not os.path.exists(path):
                print(f"{page}: there is no {name}", file=sys.stderr)
                lost = 1
    sys.exit(lost)


main()
