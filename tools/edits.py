#!/usr/bin/env python3
"""Tries the must-fail edits that the gate leaves out, those of crates/NAME/must-fail-more, as `rt must-fail` tries those of crates/NAME/must-fail: the
prover has to refuse each.

python3 tools/edits.py [NAME ..]      all crates that have any, or those named

A crate's first edit costs a proof of the crate, each further one 15 to 80 seconds, so the gate has some ten a crate (DECISIONS, "The gate"). Run this for
each crate that a change touches, below which the libraries are proved already. Prints a line for each edit, and ends with status 1 where one isn't refused.
"""
import pathlib
import shutil
import sys

import rt_once

ROOT = pathlib.Path(__file__).resolve().parent.parent


def edits_of(crate):
    return sorted(str(it) for it in pathlib.Path(crate.folder).glob("must-fail-more/*.edit"))


def main():
    command = rt_once.kit()
    command.rtlib.guarded()
    crates = {it.name: it for it in command.rtlib.crates_below(str(ROOT))}
    wanted = sys.argv[1:] or [name for name, it in crates.items() if edits_of(it)]
    unknown = [name for name in wanted if name not in crates]
    if unknown:
        sys.exit(f"edits.py: no crate of the repository: {', '.join(unknown)}")
    refused = failed = 0
    for name in wanted:
        crate = crates[name]
        if any(dep.build_rlib(["--jobs", "1"], anew=False) for dep in crate.below()):
            sys.exit(f"edits.py: a library below {name} is not proved")
        room = command.seeded(crate, ["--jobs", "1"])
        if not room:
            sys.exit(f"edits.py: {name} is not proved as it stands")
        for number, edit in enumerate(edits_of(crate)):
            over = f"{room}/{number}"
            command.linked(f"{room}/seed", over)
            came, text = command.must_fail(crate, edit, ["--jobs", "1"], over)
            print(text, flush=True)
            refused, failed = refused + (came == command.REFUSED), failed + (came != command.REFUSED)
        shutil.rmtree(room)
    print(f"{refused} refused, {failed} failed")
    return 1 if failed else 0


if __name__ == "__main__":
    sys.exit(main())
