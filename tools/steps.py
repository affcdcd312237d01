#!/usr/bin/env python3
"""Counts what each kind of step of a gateway costs: instructions, allocations, and the octets that these ask for. So work that is done twice is seen:
a message opened twice, a proof made and thrown away, a flow that is looked up anew, a buffer of 64 KiB where some hundred octets do.

After (cd crates/gw && rt run -- play ../../examples/two.gw), from anywhere: python3 tools/steps.py. It plays scripts with the program (GW names another
one), each once up to every line, under valgrind (callgrind) and once more over a small library of C that counts allocations. The difference of two
such runs is what the line between them costs, with the reading and printing of that line. It compares with tools/steps.json, prints a table, and ends with
status 1 where a step costs over 3 % more instructions or octets than there, or an allocation more, or where no such step stands there.
--write writes that file anew.
"""
import concurrent.futures
import json
import os
import pathlib
import subprocess
import sys
import tempfile

ROOT = pathlib.Path(__file__).resolve().parent.parent
GW = pathlib.Path(os.environ.get("GW", ROOT / "crates/gw/out/gw"))
KNOWN = ROOT / "tools/steps.json"

# What a step may cost above what it did, and the instructions that a run differs from another by itself.
MORE = 1.03
NOISE = 200

# Counts the allocations and the octets that they ask for, and writes both to the file that COUNTED names.
ALLOCATOR = r"""
#define _GNU_SOURCE
#include <errno.h>
#include <stdio.h>
#include <stdlib.h>

static unsigned long calls, octets;

__attribute__((destructor)) static void end(void) {
    const char *file = getenv("COUNTED");
    unsigned long found = calls, asked = octets;
    FILE *out = file ? fopen(file, "w") : NULL;
    if (out) {
        fprintf(out, "%lu %lu\n", found, asked);
        fclose(out);
    }
}

extern void *__libc_malloc(size_t), *__libc_calloc(size_t, size_t), *__libc_realloc(void *, size_t), *__libc_memalign(size_t, size_t);

static size_t counted(size_t size) {
    calls++;
    octets += size;
    return size;
}

void *malloc(size_t size) { return __libc_malloc(counted(size)); }
void *calloc(size_t count, size_t size) { return __libc_calloc(1, counted(count * size)); }
void *realloc(void *at, size_t size) { return __libc_realloc(at, counted(size)); }
void *aligned_alloc(size_t align, size_t size) { return __libc_memalign(align, counted(size)); }
int posix_memalign(void **at, size_t align, size_t size) {
    *at = __libc_memalign(align, counted(size));
    return *at ? 0 : ENOMEM;
}
"""

IPV4 = "protect 0 10.{0}.0.0-10.{0}.0.255 0-65535 10.{1}.0.0-10.{1}.0.255 0-65535"
IPV6 = "protect 0 2001:0db8:0000:000{0}:0000:0000:0000:0000-2001:0db8:0000:000{0}:ffff:ffff:ffff:ffff 0-65535 " \
       "2001:0db8:0000:000{1}:0000:0000:0000:0000-2001:0db8:0000:000{1}:ffff:ffff:ffff:ffff 0-65535"
HEAD = ["two"] + [f"entry {end} {form.format(*sides)}" for form in (IPV6, IPV4) for end, sides in (("A", "01"), ("B", "10"))]


def ipv4(host, octets=20):
    """A packet from this host of A's network to B's, in hexadecimal digits."""
    header = bytes([0x45, 0, *octets.to_bytes(2, "big"), 0, 0, 0, 0, 64, 1, 0, 0, 10, 0, 0, host, 10, 1, 0, 1])
    return (header + bytes(octets - 20)).hex()


def ipv6(host):
    """The same of IPv6, without a payload: of a host of A's /64."""
    ends = [bytes.fromhex(f"20010db80000000{side}") + number.to_bytes(8, "big") for side, number in ((0, host), (1, 1))]
    return (bytes([0x60, 0, 0, 0, 0, 0, 59, 64]) + ends[0] + ends[1]).hex()


# Scripts, by lines: what is counted of each, or None. Datagrams are numbered from 1.
BEGIN = [
    ("IKE_SA_INIT is asked", "start A 1"),
    ("IKE_SA_INIT is answered", "deliver 1"),
    ("IKE_AUTH is asked", "deliver 2"),
    ("IKE_AUTH is answered, a child made", "deliver 3"),
    ("the answer to IKE_AUTH, a child made", "deliver 4"),
]
ESTABLISHED = [(None, line) for _, line in BEGIN]
SCRIPTS = [
    BEGIN + [
        ("a repeat of IKE_AUTH", "deliver 3"),
        ("a probe is asked", "probe A 1"),
        ("a probe is answered", "deliver 6"),
        ("the answer to a probe", "deliver 7"),
        ("a repeat of a probe", "deliver 6"),
        ("a message that doesn't open", "damage 7 40 01"),
        ("a further child is asked", "child A 1 1"),
        ("a further child is answered", "deliver 9"),
        ("the answer to a further child", "deliver 10"),
        ("the deletion of a child is asked", "delete A 1"),
        ("the deletion of a child is answered", "deliver 11"),
        ("the answer to the deletion of a child", "deliver 12"),
        ("a moment that brings nothing", "tick A 10"),
        (None, "probe A 1"),
        ("a moment at which a request goes out again", "tick A 2000"),
        (None, "deliver 13"),
        (None, "deliver 15"),
        ("the deletion of an IKE SA is asked", "close A 1"),
        ("the deletion of an IKE SA is answered", "deliver 16"),
        ("the answer to the deletion of an IKE SA", "deliver 17"),
    ],
    ESTABLISHED + [
        (None, f"out A {ipv4(1)}"),
        ("a packet out, of a flow that is remembered", f"out A {ipv4(1)}"),
        ("a packet out, of a flow that is new", f"out A {ipv4(2)}"),
        ("two flows in turn: the first", f"out A {ipv4(1)}"),
        ("two flows in turn: the second", f"out A {ipv4(2)}"),
        ("a packet of 1,400 octets out", f"out A {ipv4(1, 1400)}"),
        ("a packet in", "deliver 5"),
        ("a packet of 1,400 octets in", "deliver 10"),
        ("a packet in that was taken before", "deliver 10"),
        ("a packet in that is damaged", "damage 9 40 01"),
    ],
    # Sixty flows of one /64, and each once more.
    [(None, line.replace("start A 1", "start A 0")) for _, line in BEGIN]
    + [(None, f"out A {ipv6(host)}") for host in range(1, 61)]
    + [(f"flow {host} of 60 of one /64, remembered", f"out A {ipv6(host)}") for host in (1, 17, 30, 44, 60)],
]


def played(folder, lines, number):
    """What a script costs up to there: instructions, allocations, octets."""
    script, counted, out = (folder / f"{kind}{number}" for kind in ("script", "counted", "callgrind"))
    script.write_text("\n".join(lines) + "\n")
    subprocess.run([GW, "play", script], env={"LD_PRELOAD": str(folder / "allocator.so"), "COUNTED": str(counted)}, check=True, capture_output=True)
    command = ["valgrind", "--tool=callgrind", f"--callgrind-out-file={out}", str(GW), "play", script]
    subprocess.run(command, check=True, capture_output=True, env={"PATH": os.environ["PATH"]})
    totals = next(line for line in out.read_text().splitlines() if line.startswith("totals:"))
    return [int(totals.split()[1]), *map(int, counted.read_text().split())]


def runs():
    """Each script up to every line that is counted, and up to the line before it."""
    for script in SCRIPTS:
        lines = [line for _, line in script]
        for place, (name, _) in enumerate(script):
            if name:
                yield name, HEAD + lines[:place], HEAD + lines[: place + 1]


def costs():
    with tempfile.TemporaryDirectory() as name, concurrent.futures.ThreadPoolExecutor(os.cpu_count()) as pool:
        folder = pathlib.Path(name)
        (folder / "allocator.c").write_text(ALLOCATOR)
        subprocess.run(["cc", "-O1", "-fPIC", "-shared", "-o", folder / "allocator.so", folder / "allocator.c"], check=True)
        wanted = {tuple(lines): number for number, lines in enumerate(it for _, *both in runs() for it in both)}
        found = dict(zip(wanted, pool.map(lambda it: played(folder, *it), wanted.items())))
        return {name: [new - old for old, new in zip(found[tuple(before)], found[tuple(after)])] for name, before, after in runs()}


def main():
    found = costs()
    if "--write" in sys.argv:
        KNOWN.write_text(json.dumps(found, indent=1).replace("[\n  ", "[").replace(",\n  ", ", ").replace("\n ]", "]") + "\n")
    known, wrong = json.loads(KNOWN.read_text()), []
    print("| Step | Instructions | Allocations | Octets asked for |\n|---|---|---|---|")
    for name, cost in found.items():
        print(f"| {name} | {cost[0]:,} | {cost[1]:,} | {cost[2]:,} |")
        limit = known.get(name)
        if limit is None:
            wrong.append(f"{name}: not in {KNOWN.name}")
        elif cost[0] > limit[0] * MORE + NOISE or cost[1] > limit[1] or cost[2] > limit[2] * MORE:
            wrong.append(f"{name}: {cost}, and at most {limit} is known")
    wrong += [f"{name}: no step any more" for name in known if name not in found]
    for line in wrong:
        print(line, file=sys.stderr)
    return 1 if wrong else 0


sys.exit(main())
