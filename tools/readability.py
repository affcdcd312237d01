#!/usr/bin/env python3
"""Measures how README, CONTRIBUTING and docs/ read: words a sentence, words a paragraph, characters a table's cell. Code blocks and headings are left
out, and a piece of code in a line counts as one word.

python3 tools/readability.py [FILE ..] prints what lies above the limits, in these files or all pages, and ends with status 1 where something does.
"""
import pathlib
import re
import sys

ROOT = pathlib.Path(__file__).resolve().parent.parent
PAGES = [
    *(ROOT / it for it in ("README.md", "CONTRIBUTING.md", "CHANGELOG.md", "host/README.md", "tools/second_opinion/README.md")),
    *sorted((ROOT / "docs").glob("*.md")),
]

MEAN, SENTENCE, PARAGRAPH, CELL = 18, 40, 80, 120

WORD = re.compile(r"[A-Za-z0-9][A-Za-z0-9'\-./^]*")
END = re.compile(r"(?<=[.!?])[\"')\]]*\s+(?=[A-Z0-9\"'(\[`])")
ITEM = re.compile(r"^\s*(?:[-*+]|\d+[.)])\s+")
RULE = re.compile(r"\|[\s:|-]+\|?")


def plain(text):
    """A line without its marks: a link is its text, a piece of code one word."""
    text = re.sub(r"\[([^\]]*)\]\([^)]*\)", r"\1", text)
    text = re.sub(r"`[^`]*`", "Code", text)
    return re.sub(r"[*_>|]+", " ", text)


def parts(text):
    """The paragraphs of a page, where an item of a list is one, and the cells of its tables."""
    paragraphs, cells, lines = [], [], []

    def close():
        if lines:
            paragraphs.append(plain(" ".join(lines)))
            lines.clear()

    for line in re.sub(r"^```.*?^```$", "", text, flags=re.M | re.S).splitlines():
        if line.startswith("|"):
            close()
            if not RULE.fullmatch(line):
                cells += [it.strip() for it in re.split(r"(?<!\\)\|", line.strip("|"))]
        elif not line.strip(" >") or line.startswith(("#", "    ")):
            close()
        else:
            if ITEM.match(line):
                close()
            lines.append(ITEM.sub("", line.lstrip("> ")).strip())
    close()
    return paragraphs, cells


def faults(page):
    paragraphs, cells = parts(page.read_text())
    sentences = [(len(WORD.findall(it)), it) for paragraph in paragraphs for it in END.split(paragraph)]
    sentences = [it for it in sentences if it[0] >= 3]
    mean = sum(count for count, _ in sentences) / max(1, len(sentences))
    if mean > MEAN:
        yield f"{mean:.1f} words a sentence, at most {MEAN}"
    for count, sentence in sentences:
        if count > SENTENCE:
            yield f"a sentence of {count} words, at most {SENTENCE}: {sentence[:70]}.."
    for paragraph in paragraphs:
        if (count := len(WORD.findall(paragraph))) > PARAGRAPH:
            yield f"a paragraph of {count} words, at most {PARAGRAPH}: {paragraph[:70]}.."
    for cell in cells:
        if len(cell) > CELL:
            yield f"a cell of {len(cell)} characters, at most {CELL}: {cell[:70]}.."


def main():
    pages = [pathlib.Path(it) for it in sys.argv[1:]] or PAGES
    wrong = [f"{page.name}: {it}" for page in pages for it in faults(page)]
    print("\n".join(wrong) or f"{len(pages)} pages keep the limits")
    return 1 if wrong else 0


if __name__ == "__main__":
    sys.exit(main())
