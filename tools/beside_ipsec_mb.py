#!/usr/bin/env python3
"""Times lists of packets sealed and opened by the core beside Intel's IPsec-MB with AVX2, in one run: builds crates/tool_times for x86-64-v3 and
tools/ipsec_mb/lists.c over Debian's libipsec-mb-dev, runs both in turn, and prints how many times as fast the core is. Both have to come to the
same check value. Ends with status 1 where they don't, or where a ratio is below LEAST; with 2 where the library is not installed. For a
machine that does nothing else.
"""
import pathlib
import shutil
import subprocess
import sys
import tempfile

ROOT = pathlib.Path(__file__).resolve().parent.parent
CRATE = ROOT / "crates" / "tool_times"
HEADER = pathlib.Path("/usr/include/intel-ipsec-mb.h")

# How many times both are run in turn. Of each the fastest turn counts, as within a turn the fastest round does: whatever else runs on the machine, or on
# the other thread of a core, only slows, for seconds at a time and by up to a third. So each turn takes all lists.
TURNS = 41

# Seven packets of 40 octets, four of 576 and one of 1,400 in twelve.
IMIX = [40, 576, 40, 40, 576, 40, 1400, 40, 576, 40, 576, 40]

# The count of packets, the sizes of their payloads in turn, and the least ratios for sealing and for opening.
LISTS = [
    ("64 of 1,400", 64, [1400], 0.97, 0.97),
    ("64 of 64", 64, [64], 0.93, 0.87),
    ("8 of 1,400", 8, [1400], 0.93, 0.93),
    ("IMIX of 64", 64, IMIX, 0.90, 0.87),
]


def run(program, task, count, sizes, *lanes):
    octets = sum(sizes[place % len(sizes)] + 80 for place in range(count))
    rounds = max(20, min(3_000, 3_000_000 // octets))
    words = [str(word) for word in (task, *lanes, rounds, count, *sizes)]
    best, last = subprocess.run([program, *words], check=True, capture_output=True, text=True).stdout.split()
    return int(best), int(last)


def main():
    if not HEADER.exists():
        print("libipsec-mb-dev is not installed: nothing was compared")
        return 2
    wrong = []
    with tempfile.TemporaryDirectory() as folder:
        subprocess.run(["rt", "run", "--cpu=x86-64-v3", "--", "seal", "2", "1", "1", "64"], cwd=CRATE, check=True, stdout=subprocess.DEVNULL)
        own, other = pathlib.Path(folder) / "own", pathlib.Path(folder) / "other"
        shutil.copy(CRATE / "out" / "tool_times", own)
        source = ROOT / "tools" / "ipsec_mb" / "lists.c"
        subprocess.run(["gcc", "-O2", "-Wall", "-o", other, source, "-lIPSec_MB"], check=True)
        fastest = {}
        for _ in range(TURNS):
            for name, count, sizes, *_ in LISTS:
                for task in ("seal_all", "open_all"):
                    ours, our_last = run(own, task, count, sizes, 2)
                    theirs, their_last = run(other, task, count, sizes)
                    best = fastest.setdefault((name, task), (ours, theirs))
                    fastest[name, task] = min(best[0], ours), min(best[1], theirs)
                    if task == "seal_all" and our_last != their_last and f"{name}: another check value" not in wrong:
                        wrong.append(f"{name}: another check value")
        print("| Packets | Sealing | Opening |\n| --- | --- | --- |")
        for name, _, _, *least in LISTS:
            found = [fastest[name, task][1] / fastest[name, task][0] for task in ("seal_all", "open_all")]
            print(f"| {name} | {found[0]:.2f} | {found[1]:.2f} |")
            for task, ratio, limit in zip(("seal_all", "open_all"), found, least):
                if ratio < limit:
                    wrong.append(f"{name}, {task}: {ratio:.3f} is below {limit}")
    print("\n".join(wrong))
    return 1 if wrong else 0


if __name__ == "__main__":
    sys.exit(main())
