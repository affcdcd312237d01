#!/usr/bin/env python3
"""Lays the libraries that `rt ci` proved in one checkout into another, so that `rt check` there builds none of them again: those of crates whose
files are the same in both, with all below them.

python3 tools/lay_libraries.py FROM TO

`rt ci` leaves a library in crates/NAME/out/rlib without the stamp by which `rt check` knows it; this writes it. It counts for no gate. Libraries of
different builds don't go together (`unusable-built-library`): where TO has some of its own, remove crates/*/out/rlib there first.
"""
import os
import pathlib
import shutil
import sys

import rt_once


def libraries(kit, top):
    os.chdir(top)
    return {it.name: it for it in kit.crates_below(top) if it.makes_rlib()}


def lay(source, crate):
    place = pathlib.Path(crate.rlib).parent
    shutil.rmtree(place, ignore_errors=True)
    place.mkdir(parents=True)
    shutil.copytree(source.rlib, crate.rlib, symlinks=True)
    (place / "stamp").write_text(crate.stamp(), encoding="utf-8")


def main():
    if len(sys.argv) != 3:
        sys.exit("lay_libraries.py: two checkouts are wanted, FROM and TO")
    source, target = (str(pathlib.Path(it).resolve()) for it in sys.argv[1:])
    kit = rt_once.kit().rtlib
    proved, wanted = libraries(kit, source), libraries(kit, target)
    laid, left = [], []
    for name, crate in wanted.items():
        twin = proved.get(name)
        if twin is None or not os.path.isdir(twin.rlib) or twin.stamp() != crate.stamp():
            left.append(name)
        elif not crate.is_built():
            lay(twin, crate)
            laid.append(name)
    print(f"{len(laid)} laid", *laid)
    print(f"{len(left)} not", *left)


if __name__ == "__main__":
    main()
