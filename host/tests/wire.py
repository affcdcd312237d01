#!/usr/bin/env python3
"""A wire between two network namespaces that loses, repeats and reorders: wire.py LEFT RIGHT [SEED]

It makes an interface called `wire` in each namespace and carries frames between them. It needs no more of the kernel than TAP devices. SIGUSR1
makes the wire a bad one, SIGUSR2 a good one again, as it is at first. At SIGTERM it tells what it did. The same seed gives the same choices.
"""
import fcntl
import heapq
import os
import random
import select
import signal
import struct
import subprocess
import sys
import time

TUNSETIFF, IFF_TAP, IFF_NO_PI = 0x400454CA, 0x0002, 0x1000
# What a bad wire does with a frame: chances, and the longest that it keeps one back, in seconds.
LOST, TWICE, LATE, LONGEST = 0.05, 0.05, 0.10, 0.05


def end(namespace, name):
    """A TAP device that lies in a namespace, and the file by which it is read and written here."""
    file = os.open("/dev/net/tun", os.O_RDWR | os.O_NONBLOCK)
    fcntl.ioctl(file, TUNSETIFF, struct.pack("16sH22x", name.encode(), IFF_TAP | IFF_NO_PI))
    subprocess.run(["ip", "link", "set", name, "netns", namespace, "name", "wire"], check=True)
    return file


def main():
    left, right = (end(namespace, f"wire{os.getpid()}{side}") for namespace, side in zip(sys.argv[1:3], "lr"))
    chance = random.Random(int(sys.argv[3]) if len(sys.argv) > 3 else 1)
    told = dict.fromkeys(("carried", "lost", "repeated", "reordered"), 0)
    state = {"bad": False, "over": False}
    signal.signal(signal.SIGUSR1, lambda *_: state.update(bad=True))
    signal.signal(signal.SIGUSR2, lambda *_: state.update(bad=False))
    signal.signal(signal.SIGTERM, lambda *_: state.update(over=True))
    kept = []

    def give(to, frame):
        try:
            os.write(to, frame)
            told["carried"] += 1
        except OSError:
            # The interface is down, or its queue is full.
            told["lost"] += 1

    def take(to, frame, number):
        if not state["bad"]:
            return give(to, frame)
        if chance.random() < LOST:
            told["lost"] += 1
            return None
        copies = 1
        if chance.random() < TWICE:
            told["repeated"] += 1
            copies = 2
        for copy in range(copies):
            if copy or chance.random() < LATE:
                told["reordered"] += 1
                heapq.heappush(kept, (time.monotonic() + chance.random() * LONGEST, number + copy, to, frame))
            else:
                give(to, frame)
        return None

    number = 0
    while not state["over"]:
        wait = max(0, kept[0][0] - time.monotonic()) if kept else 1
        for file in select.select([left, right], [], [], wait)[0]:
            for _ in range(64):
                try:
                    frame = os.read(file, 65536)
                except OSError:
                    break
                number += 2
                take(right if file == left else left, frame, number)
        while kept and kept[0][0] <= time.monotonic():
            _, _, to, frame = heapq.heappop(kept)
            give(to, frame)
    print(", ".join(f"{count} {word}" for word, count in told.items()), flush=True)


if __name__ == "__main__":
    main()
