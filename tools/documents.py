#!/usr/bin/env python3
"""Looks whether README, CONTRIBUTING and docs/ say what the tree says: each link leads to a file and a heading that are there, each quoted output is
that of the example that it quotes, each quoted contract stands in the file that its block names, each file of a crate is there and has the words that the page places in it, each mutant
that is named and each witness is there, and each figure of FIGURES is the one of the source that it names.

python3 tools/documents.py prints what is wrong, and ends with status 1 where something is.
"""

import pathlib
import re
import sys

ROOT = pathlib.Path(__file__).resolve().parent.parent
PAGES = [ROOT / "README.md", ROOT / "CONTRIBUTING.md", *sorted((ROOT / "docs").glob("*.md")), *sorted((ROOT / "tools").rglob("*.md")), ROOT / "host" / "README.md"]
LINK = re.compile(r"\[[^\]]*\]\(([^)\s]+)\)")
FENCE = re.compile(r"^```.*?^```$", re.M | re.S)
HEADING = re.compile(r"^#+ (.*)$", re.M)
NAMED = re.compile(r"\bcrates/([a-z_0-9]+)")
MUTANTS = re.compile(r"^\| Mutants \|.*(?:\n\| +\|.*)*", re.M)
WITNESSES = re.compile(r"^\| Witness \|.*(?:\n\| +\|.*)*", re.M)
NAME = re.compile(r"`([a-z_0-9]+)/([a-z_0-9]+)`")
PIECE = re.compile(r"`([^`\n]*)`")
PLACE = re.compile(r"crates/[a-z_0-9]+/(?:src|specs|proofs|must-fail|must-fail-more)/[\w/.-]+\.(?:rt|antt|edit)")
WORD = re.compile(r"[A-Za-z_]\w*(?:::\w+)*")

# What a page says, with its figure as the group, and where the tree has that figure: a file and a form whose group it is.
FIGURES = [
    (r"is a file of at most ([\d,]+) octets", "crates/gw_console/src/input.rt", r"FILE_LIMIT: usize = ([\d_]+)"),
    (r"Payloads go up to ([\d,]+) octets", "crates/esp/src/packet.rt", r"PAYLOAD_LIMIT: usize = ([\d_]+)"),
    (r"of another length than 28, 32, .. ([\d,]+) octets", "crates/esp/src/packet.rt", r"PACKET_LIMIT: usize = ([\d_]+)"),
    (r"It has version 4 and at most ([\d,]+) octets", "crates/policy/src/packet.rt", r"INNER_LIMIT: usize = ([\d_]+)"),
    (r"A message has 28 to ([\d,]+) octets", "crates/wire/src/numbers.rt", r"MESSAGE_LIMIT: usize = ([\d_]+)"),
    (r"A TS payload has 1 to ([\d,]+) selectors", "crates/wire/src/numbers.rt", r"SELECTOR_LIMIT: usize = ([\d_]+)"),
    (r"KE and AUTH have 1 to ([\d,]+) octets", "crates/wire/src/numbers.rt", r"KEY_EXCHANGE_LIMIT: usize = ([\d_]+)"),
    (r"\| ([\d,]+) pairs and reserved SPIs at once", "crates/sadb/src/table.rt", r"HELD_LIMIT: usize = ([\d_]+)"),
    (r"\| ([\d,]+) inbound SPIs in a gateway's life", "crates/sadb/src/table.rt", r"GIVEN_LIMIT: usize = ([\d_]+)"),
    (r"\| ([\d,]+) IKE SAs held", "crates/sa_init/src/judging.rt", r"ASSOCIATION_LIMIT: usize = ([\d_]+)"),
    (r"IKE SAs held, of which ([\d,]+) half open", "crates/sa_init/src/judging.rt", r"HALF_OPEN_LIMIT: usize = ([\d_]+)"),
    (r"from ([\d,]+) half-open IKE SAs on cookies", "crates/sa_init/src/judging.rt", r"COOKIE_THRESHOLD: usize = ([\d_]+)"),
    (r"\| ([\d,]+) SPIs named in one INFORMATIONAL", "crates/deletions/src/deciding.rt", r"NAMED_LIMIT: usize = ([\d_]+)"),
    (r"`passed ([\d,]+) failed 0 unread 0`", "crates/vectors/src/report.rt", r"ENTRIES: u32 = ([\d_]+)"),
]

# Blocks of a page that show what an example prints: the page, the block's first line, and the file that has it.
QUOTED = [
    ("README.md", "sealed 5 child 1 number 1 length 48", "examples/two.out"),
    ("docs/FORMATS.md", "$ gw show examples/cookie.hex", "examples/cookie.shown"),
    ("docs/EMBEDDING.md", "from sukperin import Counted, Entry, Gateway, Refusal, Reply, Request, Sealed", "bindings/python/examples/exchange.py"),
]


def anchor(heading):
    """The name by which a heading is linked to, as the usual renderers make it."""
    text = re.sub(r"\[([^\]]*)\]\([^)]*\)", r"\1", heading).replace("`", "").strip().lower()
    return re.sub(r"[^\w\- ]", "", text).replace(" ", "-")


def anchors(page):
    return {anchor(heading) for heading in HEADING.findall(FENCE.sub("", page.read_text()))}


def wrong_links(page):
    for target in LINK.findall(FENCE.sub("", page.read_text())):
        if re.match(r"[a-z]+:", target):
            continue
        name, _, part = target.partition("#")
        file = (page.parent / name).resolve() if name else page
        if not file.exists():
            yield f"the link {target} leads to no file"
        elif part and file.suffix == ".md" and part not in anchors(file):
            yield f"the link {target} leads to no heading"


def wrong_names(page):
    for name in sorted(set(NAMED.findall(page.read_text()))):
        if not (ROOT / "crates" / name).is_dir():
            yield f"crates/{name} is no crate"


def wrong_places(page):
    """Files that a page names, and words that it places in one of them: the pieces of code behind the file's name in the same line or cell."""
    for cell in re.split(r"(?<!\\)\||\n", FENCE.sub("", page.read_text())):
        file = None
        for found in PIECE.finditer(cell):
            piece, before = found[1], cell[: found.start()].rstrip()
            if PLACE.fullmatch(piece):
                file = ROOT / piece
                if not file.is_file():
                    yield f"{piece} is no file"
            elif file and file.is_file() and WORD.fullmatch(piece) and not before.endswith(("proved:", "law")) and not (ROOT / "crates" / piece.split("::")[0]).is_dir():
                if not re.search(rf"\b{piece.split('::')[-1]}\b", file.read_text()):
                    yield f"{file.relative_to(ROOT)} has no {piece}"


def wrong_contracts(page):
    for block in FENCE.findall(page.read_text()):
        head, *lines = block.split("\n")[:-1]
        if head.startswith("```antt "):
            file = ROOT / head.split()[1]
            if not file.is_file() or "\n".join(lines) + "\n" not in file.read_text():
                yield f"{head.split()[1]} has no such lines: {lines[0].strip()[:60]}.."


def wrong_mutants(page):
    for paragraph in MUTANTS.findall(page.read_text()):
        for crate, name in NAME.findall(paragraph):
            if not any((ROOT / "crates" / crate).glob(f"must-fail*/{name}.edit")):
                yield f"{crate}/{name} is no mutant"


def wrong_witnesses(page):
    laws = None
    for paragraph in WITNESSES.findall(page.read_text()):
        laws = laws or "".join(it.read_text() for it in (ROOT / "crates").glob("*/src/**/*.rt"))
        for name in re.findall(r"`([a-z_0-9]+)`", paragraph):
            if "_" in name and not re.search(rf"\bfn {name}\b", laws):
                yield f"{name} is no lemma"


def number(text):
    return int(re.sub(r"[,_]", "", text))


def wrong_figures(page):
    text = page.read_text()
    for said, file, form in FIGURES:
        for found in re.finditer(said, text):
            figure = number(found[1])
            there = {number(it) for it in re.findall(form, (ROOT / file).read_text())}
            if figure not in there:
                yield f"says {found[0]!r}, but {file} has {sorted(there)}"


def unsaid_figures():
    text = "".join(page.read_text() for page in PAGES)
    for said, _, _ in FIGURES:
        if not re.search(said, text):
            yield f"no page says {said!r} any more: take it out of FIGURES"


def wrong_quotes():
    for page, first, file in QUOTED:
        blocks = [it for it in FENCE.findall((ROOT / page).read_text()) if it.split("\n")[1] == first]
        if len(blocks) != 1:
            yield f"{page}: there are {len(blocks)} blocks that begin with {first!r}"
            continue
        lines = [it for it in blocks[0].split("\n")[1:-1] if not it.startswith("$ ")]
        if "\n".join(lines) + "\n" not in (ROOT / file).read_text():
            yield f"{page}: the block that begins with {first!r} is not what {file} has"


def main():
    wrong = [*wrong_quotes(), *unsaid_figures()]
    for page in PAGES:
        for look in (wrong_links, wrong_names, wrong_places, wrong_contracts, wrong_mutants, wrong_witnesses, wrong_figures):
            wrong += [f"{page.relative_to(ROOT)}: {it}" for it in look(page)]
    print("\n".join(wrong) or f"{len(PAGES)} pages say what the tree says")
    return 1 if wrong else 0


if __name__ == "__main__":
    sys.exit(main())
