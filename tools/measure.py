#!/usr/bin/env python3
"""Counts the instructions of single pieces of the gateway's work, beside the compressions of SHA-256 that docs/MEASURES.md promises,
and times the caller for real peers.

Builds crates/tool_costs and runs it under valgrind (callgrind), each piece twice with two counts: the difference is the cost of
the work alone, without the start of the program. What is timed runs without valgrind, in the same way. Prints tables, and ends with
status 1 where a piece costs less than its compressions or more than OVERHEAD above them, or takes longer than its LIMITS.
"""
import pathlib
import statistics
import subprocess
import sys
import tempfile
import time

CRATE = pathlib.Path(__file__).resolve().parent.parent / "crates" / "tool_costs"
PROGRAM = CRATE / "out" / "tool_costs"

# How far above its compressions a piece may cost, where there are more than a few of them.
OVERHEAD = 0.05

# What the key of a fresh receiver costs: two compressions to be prepared alone. For lanes it costs less than one more.
FRESH_KEY = 2

# Octets of payload. Beside the few compressions of the shortest the rest of the work counts for more: it is not judged.
SHORT = 64
SIZES = (SHORT, 1_400, 16_384)

# Milliseconds on one core that a piece of the caller for real peers may take: the task, its size, two counts, the limit.
LIMITS = [("public", None, (5, 25), 50), ("cipher", 3_000, (100, 1_100), 1)]

WORDS = {
    "hash": "the bare hash of {} octets",
    "seal": "a payload of {} octets sealed",
    "open": "such a packet, of {} octets of payload, opened by a fresh receiver",
    "table": "the last of {} pairs found by its SPI, and a payload of 1,024 octets sealed by it",
    "outbound": "the last of {} pairs found by a flow",
    "decide": "a flow that only the last of {} entries holds decided on",
    "cipher": "{} octets sealed as the body of an IKE message, AES-256-CBC and HMAC-SHA-256-128",
    "public": "a public value of the 2048-bit group",
    "remembered": "a packet of 64 octets sent, its flow remembered, with {} pairs and {} entries",
}

# How much a packet whose flow is remembered may cost beside its sealing.
REMEMBERED = 1.1

# So many flows are sent in turn, by what they differ in; and how much a packet of them may cost beside one of a flow alone. All are remembered, but
# for the few that share one of 4096 places; a flow that is looked up anew costs half as much again.
FLOWS = 64
SPREAD = 1.06
KINDS = {
    "source-ports": "{} flows in turn that differ in the source port",
    "target-ports": "{} flows in turn that differ in the target port",
    "hosts": "{} flows in turn that differ in an IPv4 address",
    "hosts6": "{} flows in turn that differ in an address of one IPv6 /64",
}


def build():
    subprocess.run(["rt", "run", "--", "hash", "1", "64"], cwd=CRATE, check=True, stdout=subprocess.DEVNULL)


def instructions(words):
    """All instructions of one run of the program."""
    with tempfile.TemporaryDirectory() as folder:
        out = pathlib.Path(folder) / "callgrind"
        command = ["valgrind", "--tool=callgrind", f"--callgrind-out-file={out}", PROGRAM, *words]
        subprocess.run(command, check=True, capture_output=True)
        lines = out.read_text().splitlines()
    return int(next(line for line in lines if line.startswith("totals:")).split()[1])


def cost(task, *size, few=10, many=60):
    """The instructions of one turn."""
    runs = [instructions([task, str(count), *map(str, size)]) for count in (few, many)]
    return (runs[1] - runs[0]) / (many - few)


def hash_compressions(octets):
    """The message, an octet that ends it and eight for its length fill whole blocks (FIPS 180-4, section 5.1.1)."""
    return -(-(octets + 9) // 64)


def covered(payload):
    """The octets under the check value: SPI and number, payload, padding, its length and the next header, the unsent half."""
    return 8 + payload + (4 - (payload + 2) % 4) % 4 + 2 + 4


def check_value_compressions(octets):
    """Those of the inner hash behind its prepared key, and one of the outer hash."""
    return hash_compressions(octets) + 1


def compression_cost():
    """One compression: what a long text costs more than one that is short."""
    return (cost("hash", 16_384) - cost("hash", SHORT)) / (hash_compressions(16_384) - hash_compressions(SHORT))


def described(task, size=None):
    return WORDS[task].format(f"{size:,}" if size else "")


def row(*cells):
    print("| " + " | ".join(cells) + " |")


def head(*cells):
    row(*cells)
    row(*["---"] * len(cells))


def counted_rows(compression):
    """Prints the pieces that have a formula; answers all costs, and a line for each that is not as its formula says."""
    head("What", "Instructions", "Compressions by the formula", "Their instructions", "Counted over formula")
    pieces = [("hash", octets, hash_compressions(octets)) for octets in SIZES]
    pieces += [("seal", octets, check_value_compressions(covered(octets))) for octets in SIZES]
    pieces += [("open", octets, check_value_compressions(covered(octets)) + FRESH_KEY) for octets in SIZES]
    pieces += [("table", pairs, check_value_compressions(covered(1_024))) for pairs in (1, 1_024)]
    costs, wrong = {}, []
    for task, size, compressions in pieces:
        costs[task, size] = counted = cost(task, size)
        formula = compressions * compression
        ratio = counted / formula
        row(described(task, size), f"{counted:,.0f}", str(compressions), f"{formula:,.0f}", f"{ratio:.3f}")
        if size != SHORT and not 1 <= ratio <= 1 + OVERHEAD:
            wrong.append(f"{described(task, size)}: {ratio:.3f}")
    return costs, wrong


def ratio_rows(costs):
    head("Octets of payload", "Sealing over the bare hash", "Opening over the bare hash")
    for octets in SIZES:
        bare = costs["hash", octets]
        row(f"{octets:,}", f"{costs['seal', octets] / bare:.3f}", f"{costs['open', octets] / bare:.3f}")


def other_rows():
    head("What", "Instructions", "For each pair, entry or octet")
    for task, size in [("outbound", 1), ("outbound", 1_024), ("decide", 1), ("decide", 256), ("cipher", 3_000)]:
        counted = cost(task, size)
        row(described(task, size), f"{counted:,.0f}", f"{counted / size:,.1f}")
    row(described("public"), f"{cost('public', few=1, many=3):,.0f}", "")


def seconds(words):
    """The time of one run of the program."""
    start = time.perf_counter()
    subprocess.run([PROGRAM, *words], check=True, stdout=subprocess.DEVNULL)
    return time.perf_counter() - start


def milliseconds(task, size, counts):
    """The time of one turn, the median of five."""
    few, many = counts
    words = [] if size is None else [str(size)]
    turns = [seconds([task, str(many), *words]) - seconds([task, str(few), *words]) for _ in range(5)]
    return 1_000 * statistics.median(turns) / (many - few)


def remembered_rows(sealing):
    """Prints what packets of remembered flows cost; answers a line for each that costs too much beside its sealing."""
    head("What", "Instructions", "Over sealing 64 octets")
    wrong = []
    for pairs, entries in [(1, 1), (1, 256), (1_024, 1), (1_024, 256)]:
        counted = cost("remembered", pairs, entries)
        name = WORDS["remembered"].format(f"{pairs:,}", entries)
        row(name, f"{counted:,.0f}", f"{counted / sealing:.3f}")
        if counted > REMEMBERED * sealing:
            wrong.append(f"more than {REMEMBERED} of its sealing: {name}: {counted / sealing:.3f}")
    return wrong


def spread_rows():
    """Prints what packets of many flows cost; answers a line for each kind of which some flows share a place, or are looked up anew."""
    head("What", "Instructions of a packet", "Over those of one flow")
    alone, wrong = cost("remembered", 1, 256), []
    for task, words in KINDS.items():
        counted = cost(task, FLOWS, few=2, many=6) / FLOWS
        name = words.format(FLOWS)
        row(name, f"{counted:,.0f}", f"{counted / alone:.3f}")
        if counted > SPREAD * alone:
            wrong.append(f"more than {SPREAD} of a flow alone: {name}: {counted / alone:.3f}")
    return wrong


def timed_rows():
    """Prints what is timed; answers a line for each piece that takes longer than it may."""
    head("What", "Milliseconds", "At most")
    wrong = []
    for task, size, counts, limit in LIMITS:
        found = milliseconds(task, size, counts)
        row(described(task, size), f"{found:.2f}", str(limit))
        if found > limit:
            wrong.append(f"more than {limit} ms: {described(task, size)}: {found:.2f}")
    return wrong


def main():
    build()
    compression = compression_cost()
    print(f"One compression of SHA-256: {compression:,.0f} instructions.\n")
    costs, wrong = counted_rows(compression)
    print()
    ratio_rows(costs)
    print()
    other_rows()
    print()
    wrong = [f"not between the formula and {OVERHEAD:.0%} above it: {line}" for line in wrong]
    wrong += remembered_rows(costs["seal", SHORT])
    print()
    wrong += spread_rows()
    print()
    wrong += timed_rows()
    for line in wrong:
        print(line, file=sys.stderr)
    return 1 if wrong else 0


sys.exit(main())
