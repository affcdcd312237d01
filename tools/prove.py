#!/usr/bin/env python3
"""Proves the libraries of the repository, or those named and what they stand on, as many side by side as their order allows: what `rt check`
does in turn. It keeps what it proved in each crate's out/, as `rt check` does, and counts for no gate. It uses the kit's own module, rtlib, so a
kit of another make may want another line here.

python3 tools/prove.py [-jN] [NAME ..]

It prints a line a crate, and ends with status 1 where one fails; the crate's whole output lies in crates/NAME/out/prove.log. While it runs no
source below a crate under way may change: else that crate counts as not built.
"""
import os
import pathlib
import signal
import sys
import threading
import time

import rt_once

ROOT = pathlib.Path(__file__).resolve().parent.parent


def kit():
    """The kit's module, as `rt` loads it. Where this `rt` lets the checkouts of a machine begin with each other's work, so do these proofs."""
    command = rt_once.kit()
    if hasattr(command, "share_work"):
        command.share_work(True)
    return command.rtlib


def quiet_in_threads():
    """The kit sets signal handlers round each call, which only the main thread may."""
    real = signal.signal

    def elsewhere(number, handler):
        return real(number, handler) if threading.current_thread() is threading.main_thread() else signal.SIG_DFL

    signal.signal = elsewhere


class Order:
    """Which crate comes next: of those whose libraries are there, the one with the longest way above it."""

    def __init__(self, crates):
        self.left, self.done, self.failed, self.running = list(crates), set(), set(), set()
        self.turn = threading.Condition()
        above = {it: [other for other in crates if it in other.deps] for it in crates}
        self.way = {}
        for crate in reversed(crates):
            self.way[crate] = 1 + max((self.way[it] for it in above[crate]), default=0)

    def take(self):
        with self.turn:
            while True:
                lost = [it for it in self.left if any(dep in self.failed for dep in it.below())]
                for crate in lost:
                    self.left.remove(crate)
                    self.failed.add(crate)
                    print(f"{crate.name}: not tried, since a library below it failed", flush=True)
                ready = [it for it in self.left if all(dep in self.done for dep in it.below())]
                if ready:
                    crate = max(ready, key=lambda it: self.way[it])
                    self.left.remove(crate)
                    self.running.add(crate)
                    return crate
                if not self.left:
                    return None
                self.turn.wait()

    def end(self, crate, passed):
        with self.turn:
            self.running.discard(crate)
            (self.done if passed else self.failed).add(crate)
            self.turn.notify_all()


def work(order):
    while crate := order.take():
        begin, passed = time.monotonic(), False
        os.makedirs(f"{crate.folder}/out", exist_ok=True)
        try:
            with open(f"{crate.folder}/out/prove.log", "w+", encoding="utf-8", errors="replace") as crate.out:
                passed = crate.build_rlib(["--jobs", "1"], anew=False) == 0
        finally:
            order.end(crate, passed)
        print(f"{crate.name}: {'proved' if passed else 'FAILED'} {time.monotonic() - begin:.0f} s", flush=True)


def main():
    jobs = [int(it[2:]) for it in sys.argv[1:] if it.startswith("-j")] or [os.cpu_count() or 1]
    names = [it for it in sys.argv[1:] if not it.startswith("-j")]
    quiet_in_threads()
    os.chdir(ROOT)
    crates = [it for it in kit().crates_below(str(ROOT)) if it.makes_rlib()]
    wanted = [it for it in crates if it.name in names] or crates
    needed = [it for it in crates if it in wanted or any(it in other.below() for other in wanted)]
    order = Order(needed)
    hands = [threading.Thread(target=work, args=(order,)) for _ in range(jobs[0])]
    for hand in hands:
        hand.start()
    for hand in hands:
        hand.join()
    print(f"{len(order.done)} proved, {len(order.failed)} not")
    return 1 if order.failed else 0


if __name__ == "__main__":
    sys.exit(main())
