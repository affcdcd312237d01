#!/usr/bin/env python3
"""Whether a unit's SystemCallFilter lets through what a program called: calls.py UNIT TRACE

TRACE is what `strace -f -o TRACE` wrote. It prints how many calls there were, and those that the filter refuses, with status 1 where there is one.
"""
import re
import subprocess
import sys


def names(word):
    """The calls of a word of the filter: itself, or those of a set, as systemd has it."""
    if not word.startswith("@"):
        return {word}
    told = subprocess.run(["systemd-analyze", "syscall-filter", word], check=True, stdout=subprocess.PIPE, text=True).stdout
    lines = [line.strip() for line in told.splitlines()[1:]]
    return set().union(*(names(line) for line in lines if line and not line.startswith("#")))


def allowed(unit):
    """systemd.exec(5): the first word begins a list of what is let through; `~` takes away from it, and a later word gives back."""
    calls = names("@default")
    with open(unit, encoding="utf-8") as lines:
        for words in re.findall(r"^SystemCallFilter=(.*)$", lines.read(), re.MULTILINE):
            told = set().union(*(names(word) for word in words.lstrip("~").split()))
            calls = calls - told if words.startswith("~") else calls | told
    return calls


def main():
    with open(sys.argv[2], encoding="utf-8", errors="replace") as lines:
        made = {found.group(1) for line in lines if (found := re.match(r"\d+ +([a-z_0-9]+)\(", line))}
    refused = made - allowed(sys.argv[1])
    print(f"{len(made)} calls" + (", refused: " + " ".join(sorted(refused)) if refused else ", none refused"))
    return 1 if refused or not made else 0


if __name__ == "__main__":
    sys.exit(main())
