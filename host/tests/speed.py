#!/usr/bin/env python3
"""Figures of speed.sh: speed.py take WHAT WHICH TICKS <REPORT, speed.py tell TABLE

`take` makes one line of a report of iperf3: what was measured, of which program, Mbit/s that arrived, Mbit of them by processor second of both
ends' programs, retransmissions. `tell` prints medians of a table of such lines: the Mbit/s of each, and ratios of one round.
"""
import json
import statistics
import sys

TICKS = 100


def take(what, which, ticks):
    try:
        end = json.load(sys.stdin)["end"]
        if what.startswith("UDP"):
            told = end["sum"]
            share = 1 - told["lost_packets"] / max(1, told["packets"])
            megabits, again = told["bits_per_second"] * share / 1e6, 0
        else:
            megabits, again = end["sum_received"]["bits_per_second"] / 1e6, end["sum_sent"]["retransmits"]
            told = end["sum_received"]
        seconds = ticks / TICKS
        print("\t".join([what, which, f"{megabits:.3f}", f"{megabits * told['seconds'] / seconds if seconds else 0:.3f}", str(again)]))
    except (KeyError, ValueError) as fault:
        print(f"{what}, {which}: no report ({fault})", file=sys.stderr)


def tell(file):
    with open(file, encoding="utf-8") as lines:
        rows = [line.rstrip("\n").split("\t") for line in lines]
    for what in dict.fromkeys(row[0] for row in rows):
        of = {which: [row for row in rows if row[:2] == [what, which]] for which in ("bare", "sukperind", "openvpn")}
        if not all(of.values()):
            print(f"{what}: not measured")
            continue

        def median(place, count):
            pairs = zip(of["sukperind"], of["openvpn"])
            return statistics.median(count(float(ours[place]), float(theirs[place])) for ours, theirs in pairs)

        speeds = ", ".join(f"{which} {statistics.median(float(row[2]) for row in of[which]):.0f}" for which in of)
        again = ", ".join(f"{which} {statistics.median(int(row[4]) for row in of[which]):.0f}" for which in of)
        ratio, by_processor = (median(place, lambda ours, theirs: ours / theirs if theirs else 0) for place in (2, 3))
        print(f"{what}: times {ratio:.2f}, by processor second {by_processor:.2f}; Mbit/s {speeds}; retransmissions {again}")


if __name__ == "__main__":
    if sys.argv[1] == "take":
        take(sys.argv[2], sys.argv[3], int(sys.argv[4]))
    else:
        tell(sys.argv[2])
