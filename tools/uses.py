#!/usr/bin/env python3
"""Compares the uses on the crates' pages with the tests of crates/test_pages: the page of NAME (crates/NAME/src/lib.rt) shows what the test
the_page_of_NAME does. A line `// ----` in a test begins another block of its page. With --write it writes the pages. Ends with status 1 where
one differs.
"""
import pathlib
import re
import sys

ROOT = pathlib.Path(__file__).resolve().parent.parent
TESTS = ROOT / "crates" / "test_pages" / "src" / "tests"
TEST = re.compile(r"^fn the_page_of_(\w+)\(.*\{\n((?:    .*\n|\n)*?)    Ok\(\(\)\)\n\}$", re.M)
USE = re.compile(r"^//! ```(?:rust|text)\n(?:^//!.*\n)*?^//! ```\n", re.M)
NEXT = "\n\n    // ----\n"


def shown(part):
    """A part of a test's body as a page shows it."""
    lines = [line[4:] for line in part.rstrip("\n").split("\n")]
    return "".join(f"//! {line}".rstrip() + "\n" for line in ["```rust", *lines, "```"])


def pages():
    for file in sorted(TESTS.glob("*.rt")):
        for name, body in TEST.findall(file.read_text()):
            yield name, ROOT / "crates" / name / "src" / "lib.rt", [shown(part) for part in body.split(NEXT)]


def main():
    differ, found_none = [], True
    for name, page, wanted in pages():
        found_none = False
        text = page.read_text()
        found = USE.findall(text)[: len(wanted)]
        if found == wanted:
            continue
        differ.append(name)
        if "--write" in sys.argv and len(found) == len(wanted):
            for old, new in zip(found, wanted):
                text = text.replace(old, new, 1)
            page.write_text(text)
    for name in differ:
        print(f"the page of {name} shows another use than its test")
    if found_none:
        print(f"no test of a page is in {TESTS}")
    elif not differ:
        print("all pages show what their tests do")
    return 1 if differ or found_none else 0


sys.exit(main())
