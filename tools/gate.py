#!/usr/bin/env python3
"""Runs `rt ci` from nothing at the top of the repository, shows what it prints, and at its end what each crate cost: processor minutes
of the prover for its own proofs, for its tests and for its must-fail edits. Ends with the status of `rt ci`.

python3 tools/gate.py
"""
import collections
import os
import pathlib
import subprocess
import sys
import threading
import time

ROOT = pathlib.Path(__file__).resolve().parent.parent
KINDS = ("proofs", "tests", "edits")
TICKS = os.sysconf("SC_CLK_TCK")


def prover_runs():
    """Yields, of each run of the prover under way, a name of its own, its crate, its kind and its processor seconds so far."""
    for process in filter(str.isdigit, os.listdir("/proc")):
        try:
            words = pathlib.Path(f"/proc/{process}/cmdline").read_text(errors="replace").split("\0")
            if os.path.basename(words[0]) != "rattle" or "--crate-name" not in words:
                continue
            folder = os.readlink(f"/proc/{process}/cwd")
            times = pathlib.Path(f"/proc/{process}/stat").read_text().rpartition(")")[2].split()
        except OSError:
            continue
        crate = words[words.index("--crate-name") + 1]
        is_edit = "/rt-edit-" in folder
        if not is_edit and pathlib.Path(folder) != ROOT / "crates" / crate:
            continue
        kind = "edits" if is_edit else "tests" if "--test" in words else "proofs"
        yield (process, folder), crate, kind, (int(times[11]) + int(times[12])) / TICKS


def watch(costs, ended):
    """Keeps, of each run, what it cost when it was last seen."""
    while not ended.wait(1):
        for run, crate, kind, seconds in prover_runs():
            costs[run] = crate, kind, seconds


def table(costs):
    sums = collections.defaultdict(collections.Counter)
    for crate, kind, seconds in costs.values():
        sums[crate][kind] += seconds / 60
        sums["all"][kind] += seconds / 60
    print("\n| Crate | Proofs | Tests | Edits |\n|---|---|---|---|")
    for crate in [*sorted(it for it in sums if it != "all"), "all"]:
        print(f"| `{crate}` | " + " | ".join(f"{sums[crate][kind]:.1f}" for kind in KINDS) + " |")


def from_nothing():
    """The gate's command: kits that keep what passed know the word --anew, the others always begin from nothing."""
    told = subprocess.run(["rt", "help"], capture_output=True, text=True)
    return ["rt", "ci", *(["--anew"] if "--anew" in told.stdout + told.stderr else [])]


def main():
    costs, ended, start = {}, threading.Event(), time.time()
    watcher = threading.Thread(target=watch, args=(costs, ended))
    watcher.start()
    status = subprocess.run(from_nothing(), cwd=ROOT).returncode
    ended.set()
    watcher.join()
    table(costs)
    print(f"\n{(time.time() - start) / 60:.0f} minutes")
    return status


if __name__ == "__main__":
    sys.exit(main())
