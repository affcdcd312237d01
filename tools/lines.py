#!/usr/bin/env python3
"""Prints of each crate the lines of code, tests, definitions and proofs, and its must-fail edits, those that the gate tries and those that tools/edits.py does. python3 tools/lines.py"""
import pathlib

crates = pathlib.Path(__file__).resolve().parent.parent / "crates"


def lines(paths):
    return sum(len(path.read_text().splitlines()) for path in paths)


def is_test(path, source):
    parts = path.relative_to(source).parts
    return "tests" in parts or parts[-1] == "tests.rt"


print("| Crate | Code | Tests | Definitions | Proofs | Must-fail edits | More |")
print("|---|---|---|---|---|---|---|")
sums = [0] * 6
for crate in sorted(crates.iterdir()):
    source = crate / "src"
    if not source.is_dir():
        continue
    code = list(source.rglob("*.rt"))
    tests = [path for path in code if is_test(path, source)]
    row = [
        lines(path for path in code if path not in tests),
        lines(tests),
        lines((crate / "specs").rglob("*.antt")),
        lines((crate / "proofs").rglob("*.antt")),
        *(len(list((crate / folder).glob("*.edit"))) for folder in ("must-fail", "must-fail-more")),
    ]
    sums = [total + one for total, one in zip(sums, row)]
    print(f"| `{crate.name}` | " + " | ".join(f"{one:,}" for one in row) + " |")
print("| all | " + " | ".join(f"{one:,}" for one in sums) + " |")
