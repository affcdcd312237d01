#!/usr/bin/env python3
"""Plays scripts of kind `two` over drawn policies, windows and losses, so with the provider of scripts, and compares each line with what is to come:
where datagrams are delivered, a tunnel comes up, carries what is sealed, and recovers. What is to come is worked out from what was drawn.

GW=crates/gw/out/gw python3 tools/second_opinion/progress.py --seed 1 --cases 300
"""
import argparse
import os
import random
import re
import subprocess
import sys
import tempfile
from ipaddress import IPv4Address

# When a request goes out again, and when its IKE SA is closed, in milliseconds after it first went out (docs/OPERATING.md).
AGAIN, CLOSED = (1000, 3000, 7000, 15000, 31000), 47000
# Half-open IKE SAs from which on a cookie is asked for.
UNDER_LOAD = 8
PORTS = (0, 65535)
ENDS = "AB"


def around(draw, point, first, last):
    return draw.randint(first, point), draw.randint(point, last)


class Place:
    """An entry of A and what B has for it, in networks of their own. Both hold one point of each side, or B's has none of A's."""

    def __init__(self, draw, number, meets):
        self.meets = meets
        protocol = draw.choice((0, 1, 6, 17, 47))
        has_ports = protocol in (6, 17)
        self.protocol = protocol or 47
        networks = [10 << 24 | side << 23 | number << 16 for side in (0, 1)]
        self.points = [(network | draw.randrange(1 << 15), draw.randrange(65536)) for network in networks]
        self.entries = []
        for end in (0, 1):
            sides = []
            for side in (0, 1):
                address, port = self.points[side]
                first = networks[side]
                # (where nothing is to be left, B's network side lies in the upper half, A's in the lower one)
                if not meets and end == 1 and side == 1:
                    first, address = first + (1 << 15), address + (1 << 15)
                low, high = around(draw, address, first, first + (1 << 15) - 1)
                ports = around(draw, port, *PORTS) if has_ports else PORTS
                sides.append(f"{IPv4Address(low)}-{IPv4Address(high)} {ports[0]}-{ports[1]}")
            asked = protocol if has_ports else draw.choice((0, protocol))
            self.entries.append(f"protect {asked} {sides[end]} {sides[1 - end]}")

    def packet(self, draw, end):
        (source, source_port), (target, target_port) = self.points[end], self.points[1 - end]
        payload = source_port.to_bytes(2, "big") + target_port.to_bytes(2, "big") + draw.randbytes(draw.randint(16, 200))
        header = bytes((0x45, 0)) + (20 + len(payload)).to_bytes(2, "big") + bytes((0, 0, 0, 0, 64, self.protocol, 0, 0))
        return (header + source.to_bytes(4, "big") + target.to_bytes(4, "big") + payload).hex()


class Script:
    def __init__(self, seed):
        self.draw = random.Random(seed)
        self.lines, self.expected = ["two"], []
        self.datagrams, self.time, self.sealed, self.crowded = 0, 0, [0, 0], False
        if self.draw.random() < 0.5:
            self.lines.append("extended no")
        for end in ENDS:
            self.lines.append(f"window {end} {self.draw.randint(1, 16)}")

    def say(self, line, *expected):
        self.lines.append(line)
        self.expected += expected

    def sent(self, word, rest=r" length \d+"):
        self.datagrams += 1
        return rf"{word} {self.datagrams}{rest}"

    def wait(self, end, until, *expected):
        """The time is told to both ends, and something is due at one."""
        self.time = until
        self.say(f"tick {end} {until}", *expected)
        self.say(f"tick {'BA'[ENDS.index(end)]} {until}", "ticked")

    def asks(self, end, line, ike):
        self.say(line, self.sent("request", rf" ike {ike} length \d+"))
        return self.datagrams, self.time, ike, end

    def answered(self, asked, most):
        """Up to so many sendings are in vain: the request is lost, or its answer. Then a copy is answered, and that answer is what is given."""
        request, began, ike, end = asked
        copy, reply = request, None
        # (in a crowd no time passes, in which the other half-open IKE SAs would have their own retransmissions)
        for due in AGAIN[: 0 if self.crowded else self.draw.randint(0, most)]:
            if self.draw.random() < 0.5:
                reply = self.answer(copy, reply)
            self.wait(end, began + due, self.sent("request", rf" ike {ike} length \d+"))
            copy = self.datagrams
            self.say(f"same {request} {copy}", "same yes")
        self.answer(copy, reply)
        return self.datagrams

    def answer(self, copy, reply):
        self.say(f"deliver {copy}", self.sent("repeat" if reply else "reply"))
        if reply:
            self.say(f"same {reply} {self.datagrams}", "same yes")
        return reply or self.datagrams

    def comes_up(self, end, entry, ike, child, meets):
        first = self.asks(end, f"start {end} {entry}", ike)
        if self.crowded:
            self.say(f"deliver {first[0]}", self.sent("reply"))
            self.say(f"deliver {self.datagrams}", self.sent("request", rf" ike {ike} length \d+"))
            first = self.datagrams, self.time, ike, end
        # (both exchanges end before the half-open IKE SA is given up, 30 seconds after it began)
        reply = self.answered(first, 3)
        self.say(f"deliver {reply}", self.sent("request", rf" ike {ike} length \d+"))
        reply = self.answered((self.datagrams, self.time, ike, end), 4)
        self.say(f"deliver {reply}", rf"counted ike {ike}" + (rf" child {child}" if meets else ""))

    def carries(self, place, end, child):
        sent = []
        for _ in range(self.draw.randint(1, 40)):
            packet = place.packet(self.draw, end)
            self.sealed[end] += 1
            self.say(f"out {ENDS[end]} {packet}", self.sent("sealed", rf" child {child} number {self.sealed[end]} length \d+"))
            sent.append((self.datagrams, self.sealed[end], packet))
        # (fewer than the window spans, so that in any order each that isn't lost goes up)
        arriving = [it for it in sent if self.draw.random() < 0.7]
        self.draw.shuffle(arriving)
        for datagram, number, packet in arriving:
            self.say(f"deliver {datagram}", f"up child {child} number {number} {packet}")

    def is_given_up(self, end, ike):
        asked = self.asks(end, f"probe {end} {ike}", ike)
        for due in AGAIN:
            self.wait(end, asked[1] + due, self.sent("request", rf" ike {ike} length \d+"))
        self.wait(end, asked[1] + CLOSED, rf"closed ike {ike}")
        self.say(f"table {end}", "empty")


def drawn(seed):
    script = Script(seed)
    draw = script.draw
    places = [Place(draw, number, draw.random() < 0.75) for number in range(draw.randint(1, 4))]
    for end in (0, 1):
        script.lines += [f"entry {ENDS[end]} {place.entries[end]}" for place in places]
    chosen = draw.randrange(len(places))
    place, ike = places[chosen], 1
    script.crowded = draw.random() < 0.25
    if script.crowded:
        for _ in range(UNDER_LOAD):
            asked = script.asks("A", f"start A {chosen}", ike)
            script.say(f"deliver {asked[0]}", script.sent("reply"))
            ike += 1
    script.comes_up("A", chosen, ike, 1, place.meets)
    # (each offer has an SPI of its own, counted up from what the script's kind has)
    spis = f"{0x1000 + ike - 1:08x}", "00002000"
    for end, own, other in zip(ENDS, spis, reversed(spis)):
        script.say(f"table {end}", rf"pair 1 ike {ike} in {own} out {other} live" if place.meets else "empty")
    if place.meets:
        for _ in range(3):
            script.carries(place, draw.randrange(2), 1)
    for _ in range(draw.randint(0, 3)):
        end = draw.choice(ENDS)
        reply = script.answered(script.asks(end, f"probe {end} {ike}", ike), 5)
        script.say(f"deliver {reply}", rf"counted ike {ike}")
    if not script.crowded and draw.random() < 0.5:
        for end in ENDS:
            script.is_given_up(end, ike)
        script.sealed = [0, 0]
        script.comes_up(draw.choice(ENDS), chosen, 2, 2 if place.meets else None, place.meets)
        if place.meets:
            script.carries(place, draw.randrange(2), 2)
    return script


def main():
    words = argparse.ArgumentParser()
    words.add_argument("--seed", type=int, default=1)
    words.add_argument("--cases", type=int, default=300)
    asked = words.parse_args()
    differ = lines = 0
    for case in range(asked.cases):
        script = drawn(asked.seed * 1_000_003 + case)
        with tempfile.NamedTemporaryFile("w", suffix=".gw") as file:
            file.write("\n".join(script.lines) + "\n")
            file.flush()
            ran = subprocess.run([os.environ.get("GW", "crates/gw/out/gw"), "play", file.name], capture_output=True, text=True)
        printed = ran.stdout.splitlines()
        lines += len(printed)
        wrong = next((at for at, pair in enumerate(zip(printed, script.expected)) if not re.fullmatch(pair[1], pair[0])), None)
        if ran.returncode or wrong is not None or len(printed) != len(script.expected):
            differ += 1
            if differ == 1:
                at = min(len(printed), len(script.expected)) if wrong is None else wrong
                print("\n".join(script.lines), f"\nline {at + 1} printed: {printed[at:at + 1]}, to come: {script.expected[at:at + 1]} {ran.stderr}")
    print(f"{asked.cases} scripts, {lines} lines, {differ} differ")
    sys.exit(differ > 0)


if __name__ == "__main__":
    main()
