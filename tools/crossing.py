#!/usr/bin/env python3
"""Times the C library's lists beside those of the core that it is made of, in one run: what bindings/c/crossing.c prints of the library below a
prefix; the same lists of 64 packets by Outbound::seal_all and Inbound::open_all (crates/tool_times); and by gateway::run (crates/tool_runs). All are for
x86-64-v3.

python3 tools/crossing.py PREFIX, where tools/library.sh laid the library out. Prints how many times as long the library takes: each turn takes
all, and of each the fastest counts, a refused call too, since whatever else runs only slows. Beside esp's lists a packet's flow is looked up, its selectors are compared, and a record is written; beside run's only the record is. Ends with
status 1 where a list of 1,400 octets takes over MOST times as long as one of esp's, one of any length over MOST_RUN times as long as run's, a refused
call MOST_REFUSED nanoseconds, or crossing itself finds something wrong.
"""
import pathlib
import re
import subprocess
import sys
import tempfile

ROOT = pathlib.Path(__file__).resolve().parent.parent
LENGTHS = (64, 576, 1400)
WAYS = ("out", "in")
MOST = 1.05
MOST_RUN = 1.05
MOST_REFUSED = 10
ROUNDS = 200
NO_LIMIT = 1_000
TURNS = 15


def built(name, *words):
    """The program of a crate of tools, built for x86-64-v3."""
    crate = ROOT / "crates" / name
    subprocess.run(["rt", "run", "--cpu=x86-64-v3", "--", *words], cwd=crate, check=True, stdout=subprocess.DEVNULL)
    return crate / "out" / name


def best(program, *words):
    return int(subprocess.run([program, *words], check=True, capture_output=True, text=True).stdout.split()[0]) / 64


def main():
    if len(sys.argv) != 2:
        sys.exit("crossing.py: a prefix is wanted, as /usr/local")
    library = pathlib.Path(sys.argv[1]).resolve() / "lib/glibc-hwcaps/x86-64-v3/libsukperin.a"
    lists, runs = built("tool_times", "seal", "2", "1", "1", "64"), built("tool_runs", "in", "2", "1", "1", "64")
    with tempfile.TemporaryDirectory() as folder:
        crossing = pathlib.Path(folder) / "crossing"
        include = library.parents[3] / "include"
        subprocess.run(["cc", "-O2", f"-I{include}", ROOT / "bindings/c/crossing.c", library, "-o", crossing], check=True)
        fastest, refused = {}, []
        for _ in range(TURNS):
            ran = subprocess.run([crossing, str(ROUNDS), str(NO_LIMIT)], capture_output=True, text=True)
            said = ran.stdout
            if ran.returncode:
                sys.exit(f"{said}{ran.stderr}crossing.py: crossing found what is said above")
            refused.append(float(re.search(r"^a refused call takes (.*) ns$", said, re.M)[1]))
            for line in re.findall(r"^\| (\d+ .*) \|$", said, re.M):
                length, _, _, out, came, *_ = map(float, line.split(" | "))
                words = ("2", str(ROUNDS), "64", str(int(length)))
                for way, task, time in (("out", "seal_all", out), ("in", "open_all", came)):
                    times = {"library": time, "esp": best(lists, task, *words), "run": best(runs, f"{way}_all", *words)}
                    for which, nanoseconds in times.items():
                        fastest[length, way, which] = min(nanoseconds, fastest.get((length, way, which), nanoseconds))
    print(said, end="")
    print("| Octets | Out, over seal_all | In, over open_all | Out, over run | In, over run |\n|---|---|---|---|---|")
    found = {(*key, beside): fastest[*key, "library"] / fastest[*key, beside] for *key, beside in fastest if beside != "library"}
    for length in LENGTHS:
        print(f"| {length:,} | " + " | ".join(f"{found[length, way, beside]:.2f}" for beside in ("esp", "run") for way in WAYS) + " |")
    slow = [f"1,400 octets {way} beside esp's" for way in WAYS if found[1400, way, "esp"] > MOST]
    slow += [f"{length} octets {way} beside run's" for length in LENGTHS for way in WAYS if found[length, way, "run"] > MOST_RUN]
    for which in slow:
        print(f"slower than it should be: a list of 64 packets of {which}", file=sys.stderr)
    print(f"a refused call takes {min(refused)} ns at least, in one of {TURNS} turns")
    return 1 if slow or min(refused) >= MOST_REFUSED else 0


sys.exit(main())
