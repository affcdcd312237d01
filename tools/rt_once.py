#!/usr/bin/env python3
"""`rt`, but that each sum over a library's files is made once and not once for each path that leads to it.

python3 tools/rt_once.py check --jobs 1      in a crate's folder; any words of rt

Whether a library is up to date `rt` tells by such sums (PROVING says which kits make them by every path). High up in this tree that takes minutes for
each check, and here a second. Nothing else differs, and it counts for no gate.
"""
import importlib.machinery
import importlib.util
import os
import shutil
import sys
import threading


def kit():
    """The kit's module of `rt`, whose sums are made once."""
    path = os.path.realpath(shutil.which("rt"))
    loader = importlib.machinery.SourceFileLoader("rt", path)
    command = importlib.util.module_from_spec(importlib.util.spec_from_loader("rt", loader))
    loader.exec_module(command)
    make_once(command.rtlib.Crate)
    return command


def make_once(crate):
    """Within one sum over a crate and those below it, each crate's own is made once. The next sum begins anew, so that a change is seen."""
    inner, known = crate.stamp, threading.local()

    def stamp(self):
        if getattr(known, "sums", None) is not None:
            if self.folder not in known.sums:
                known.sums[self.folder] = inner(self)
            return known.sums[self.folder]
        known.sums = {}
        try:
            return inner(self)
        finally:
            known.sums = None

    crate.stamp = stamp


if __name__ == "__main__":
    sys.exit(kit().main(sys.argv[1:]))
