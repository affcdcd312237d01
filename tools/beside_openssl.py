#!/usr/bin/env python3
"""Times a power modulo the 2048-bit prime beside OpenSSL's constant-time one, in one run: builds crates/tool_costs for both targets and
tools/openssl/public.c over Debian's libssl-dev, and prints how many times as long the core takes. Both have to come to the same value's last octet.
Ends with status 1 where they don't, or where a ratio is above MOST; with 2 where the library is not installed. For a machine that does nothing else.
"""
import pathlib
import shutil
import statistics
import subprocess
import sys
import tempfile
import time

ROOT = pathlib.Path(__file__).resolve().parent.parent
CRATE = ROOT / "crates" / "tool_costs"
HEADER = pathlib.Path("/usr/include/openssl/bn.h")
TARGETS = {"default": [], "x86-64-v3": ["--cpu=x86-64-v3"]}

# How many times as long as OpenSSL's a power may take, and how many turns are timed.
MOST = 3.0
TURNS = 200


def seconds(program, count):
    start = time.perf_counter()
    said = subprocess.run([program, "public", str(count)], check=True, capture_output=True, text=True).stdout
    return time.perf_counter() - start, int(said.split()[0])


def own_turn(program):
    """The nanoseconds of one turn: what so many turns take beyond one."""
    one, _ = seconds(program, 1)
    all_of_them, octet = seconds(program, TURNS + 1)
    return (all_of_them - one) / TURNS * 1e9, octet


def main():
    if not HEADER.exists():
        print("libssl-dev is not installed: nothing was compared")
        return 2
    wrong = []
    with tempfile.TemporaryDirectory() as folder:
        other = pathlib.Path(folder) / "other"
        subprocess.run(["gcc", "-O2", "-Wall", "-Wextra", "-o", other, ROOT / "tools" / "openssl" / "public.c", "-lcrypto"], check=True)
        for target, flags in TARGETS.items():
            subprocess.run(["rt", "run", *flags, "--", "public", "1"], cwd=CRATE, check=True, stdout=subprocess.DEVNULL)
            own = pathlib.Path(folder) / target
            shutil.copy(CRATE / "out" / "tool_costs", own)
            ratios = []
            for _ in range(7):
                ours, our_octet = own_turn(own)
                theirs, their_octet = map(int, subprocess.run([other, str(TURNS)], check=True, capture_output=True, text=True).stdout.split())
                ratios.append(ours / theirs)
                if our_octet != their_octet:
                    wrong.append(f"another value: {our_octet} and {their_octet}")
            found = statistics.median(ratios)
            print(f"a power at {target}: {found:.2f} times OpenSSL's", flush=True)
            if found > MOST:
                wrong.append(f"a power at {target} takes {found:.2f} times OpenSSL's, at most {MOST}")
    print("\n".join(wrong), file=sys.stderr)
    return 1 if wrong else 0


if __name__ == "__main__":
    sys.exit(main())
