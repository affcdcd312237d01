#!/usr/bin/env python3
"""Times lists of packets beside one by one: by the calls of esp (crates/tool_times), and through a gateway, by run beside step
(crates/tool_runs). Builds both for the default target and for x86-64-v3, runs them, and prints the ratios of docs/MEASURES.md. Ends with status 1
where a list is slower than its packets one by one, or not as much faster as LEAST and LEAST_RUNS say. For a machine that does nothing else.
"""
import pathlib
import shutil
import subprocess
import sys
import tempfile

CRATES = pathlib.Path(__file__).resolve().parent.parent / "crates"
TARGETS = {"default": [], "x86-64-v3": ["--cpu=x86-64-v3"]}
LANES = {"default": 6, "x86-64-v3": 2} # from how many packets on lists begin lanes, as libsukperin has it

# How many times all are run in turn. Of each the fastest turn counts: whatever else runs on the machine, or on the other thread of a core, only slows, for
# seconds at a time and by up to a third.
TURNS = 15

# The count of packets and the sizes of their payloads, in turn.
LISTS = [
    (64, [1400]),
    (64, [576]),
    (64, [64]),
    (64, [64, 576, 1400]),
    (100, [64, 576, 1400]),
    (8, [1400]),
    (6, [1400]),
    (5, [1400]),
    (1, [1400]),
    (8, [16384, 0, 0, 0, 0, 0, 0, 0]),
]

# How many times as fast a list has to be at x86-64-v3; any other only must not be slower than LOSS allows.
LEAST = {(64, (1400,)): 4.0, (64, (64, 576, 1400)): 3.5}
LOSS = 0.97
ALONE = 0.98 # one packet

# The same of lists through a gateway: how many packets of how many octets, and how many times as fast they come in and go out at x86-64-v3.
LEAST_RUNS = {
    (64, 1400): (4.0, 2.8),
    (64, 64): (2.5, 2.5),
    (8, 1400): (LOSS, LOSS),
    (4, 64): (LOSS, LOSS),
    (2, 1400): (LOSS, LOSS),
    (2, 64): (LOSS, LOSS),
    (1, 1400): (ALONE, ALONE),
}


def built(folder, crate, target, flags, words):
    """The program of a crate, built for a target."""
    subprocess.run(["rt", "run", *flags, "--", *words.split()], cwd=CRATES / crate, check=True, stdout=subprocess.DEVNULL)
    program = pathlib.Path(folder) / f"{crate}-{target}"
    shutil.copy(CRATES / crate / "out" / crate, program)
    return program


def nanoseconds(program, task, lanes, count, sizes):
    octets = sum(sizes[place % len(sizes)] + 80 for place in range(count))
    rounds = max(20, min(3_000, 3_000_000 // octets))
    words = [str(word) for word in (task, lanes, rounds, count, *sizes)]
    return int(subprocess.run([program, *words], check=True, capture_output=True, text=True).stdout.split()[0])


def ratios(asked):
    """How many times as fast a call for each list is as its packets one by one: asked is of the program, the task, the lanes, the count and the sizes."""
    fastest = {}
    for _ in range(TURNS):
        for key, (program, task, *words) in asked.items():
            singly, listed = nanoseconds(program, task, *words), nanoseconds(program, f"{task}_all", *words)
            best = fastest.setdefault(key, (singly, listed))
            fastest[key] = min(best[0], singly), min(best[1], listed)
    return {key: singly / listed for key, (singly, listed) in fastest.items()}


def name_of(count, sizes):
    return f"{count} of {', '.join(f'{size:,}' for size in sizes)}"


def times_of(folder, crate, words, tasks, lists, least, where):
    """Prints the ratios of these lists for both targets, and yields what is too slow."""
    programs = {target: built(folder, crate, target, flags, words) for target, flags in TARGETS.items()}
    asked = {
        (target, count, tuple(sizes), task): (program, task, LANES[target], count, sizes)
        for target, program in programs.items()
        for count, sizes in lists
        for task in tasks
    }
    found = ratios(asked)
    for target, flags in TARGETS.items():
        for count, sizes in lists:
            both = [found[target, count, tuple(sizes), task] for task in tasks]
            name = name_of(count, sizes)
            print(f"| {name} | {target} | {both[0]:.2f} | {both[1]:.2f} |", flush=True)
            bounds = least(count, sizes) if flags else [ALONE if count == 1 else LOSS] * 2
            yield from (f"{name}{where} at {target}: {value:.3f}" for value, bound in zip(both, bounds) if value < bound)


def times_of_lists(folder):
    """Of the calls of esp."""
    print("| Packets | Target | Sealing | Opening |\n| --- | --- | --- | --- |")
    least = lambda count, sizes: [LEAST.get((count, tuple(sizes)), ALONE if count == 1 else LOSS)] * 2
    yield from times_of(folder, "tool_times", "seal 6 1 1 64", ("seal", "open"), LISTS, least, "")


def times_of_runs(folder):
    """Of lists through a gateway."""
    print("\n| Packets through a gateway | Target | In | Out |\n| --- | --- | --- | --- |")
    lists = [(count, [size]) for count, size in LEAST_RUNS]
    least = lambda count, sizes: LEAST_RUNS[count, sizes[0]]
    yield from times_of(folder, "tool_runs", "in 6 1 1 64", ("in", "out"), lists, least, " through a gateway")


def main():
    with tempfile.TemporaryDirectory() as folder:
        wrong = [*times_of_lists(folder), *times_of_runs(folder)]
    for line in wrong:
        print(f"not as fast as it should be: {line}", file=sys.stderr)
    return 1 if wrong else 0


sys.exit(main())
