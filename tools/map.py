"""Compares the map of docs/DESIGN.md with crates.txt: each crate stands on it once, above all that it uses. And compares crates.txt with the
crates: each names every crate that its line says it uses.

python3 tools/map.py prints what is wrong, and ends with status 1 where something is.
"""

import re
import sys
from pathlib import Path

ROOT = Path(__file__).resolve().parent.parent

# Uses that no file of the crate names, by crate, and why crates.txt has them: the toolchain refuses the crate without.
UNNAMED = {"sukperin": {"requests"}}  # calls a method of what an association holds


def said():
    """Returns, for each crate of the repository, all that it uses as crates.txt says."""
    lines = [line.partition(":") for line in (ROOT / "crates.txt").read_text().splitlines() if line]
    return {name.split()[0]: words.split() for name, _, words in lines}


def uses():
    """Returns, for each crate of the repository, those of the repository that it uses."""
    named = said()
    return {name: [word for word in words if word in named] for name, words in named.items()}


def text_of(crate):
    """Returns all code, contracts and proofs of a crate."""
    files = (it for kind in ("src", "specs", "proofs") for it in (ROOT / "crates" / crate / kind).rglob("*") if it.suffix in (".rt", ".antt"))
    return "\n".join(it.read_text() for it in files)


def unnamed():
    """Returns what crates.txt says of uses that no file names."""
    found = []
    for crate, words in said().items():
        text = text_of(crate)
        idle = {word for word in words if not re.search(rf"\b{word}::|Rattle\.{word}\b|\buse {word};", text)}
        found += [f"crates.txt: {crate} names {word} nowhere" for word in sorted(idle - UNNAMED.get(crate, set()))]
        found += [f"map.py: {crate} names {word}" for word in sorted(UNNAMED.get(crate, set()) - idle)]
    return found


def on_map():
    """Returns the crates of each line of the map, from the top."""
    text = (ROOT / "docs/DESIGN.md").read_text()
    block = re.search(r"## The map\n\n```\n(.*?)```", text, re.S)[1]
    lines = [line for line in block.splitlines() if not line.startswith(" ")]
    return [re.split(r"  |(?<=[a-z]) (?=[A-Z])", line)[0].split(", ") for line in lines]


def main():
    below, seen, wrong = uses(), [], unnamed()
    # from the bottom: what a crate uses was seen before
    for crates in reversed(on_map()):
        for crate in crates:
            missing = [it for it in below.get(crate, []) if it not in seen]
            wrong += [f"{crate} stands below {it}, which it uses" for it in missing]
        seen += crates
    wrong += [f"{it} is not on the map" for it in below if it not in seen]
    wrong += [f"{it} is no crate" for it in seen if it not in below]
    print("\n".join(wrong) or f"{len(seen)} crates, each above what it uses, and each names what it uses")
    return 1 if wrong else 0


if __name__ == "__main__":
    sys.exit(main())
