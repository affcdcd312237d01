#!/usr/bin/env python3
"""Datagrams with numbers, to see which arrive and whether any does twice.

numbered.py send ADDRESS PORT RATE SECONDS    sends so many a second, and tells how many
numbered.py count ADDRESS PORT                takes them until SIGTERM, and tells 'A arrived, T twice, D damaged'
"""
import hashlib
import random
import signal
import socket
import sys
import time

SUM = 8


def body(number, chance):
    """A datagram: its number, random octets, and a sum of both."""
    text = number.to_bytes(8, "little") + chance.randbytes(chance.randrange(1200))
    return text + hashlib.sha256(text).digest()[:SUM]


def send(address, port, rate, seconds):
    link = socket.socket(socket.AF_INET6 if ":" in address else socket.AF_INET, socket.SOCK_DGRAM)
    chance, begun, number, refused = random.Random(1), time.monotonic(), 0, 0
    while (now := time.monotonic() - begun) < seconds:
        while number < now * rate:
            try:
                link.sendto(body(number, chance), (address, port))
            except OSError:
                # No route, while the interface is away.
                refused += 1
            number += 1
        time.sleep(0.002)
    print(f"{number - refused} sent", flush=True)


def count(address, port):
    link = socket.socket(socket.AF_INET6 if ":" in address else socket.AF_INET, socket.SOCK_DGRAM)
    # Where the address comes with the interface it may come later.
    link.setsockopt(socket.SOL_IP if ":" not in address else socket.IPPROTO_IPV6, 15 if ":" not in address else 78, 1)
    link.setsockopt(socket.SOL_SOCKET, socket.SO_RCVBUF, 4 << 20)
    link.bind((address, port))
    link.settimeout(0.2)
    over = []
    signal.signal(signal.SIGTERM, lambda *_: over.append(True))
    seen, twice, damaged = set(), 0, 0
    while not over:
        try:
            text = link.recv(65536)
        except OSError:
            continue
        if hashlib.sha256(text[:-SUM]).digest()[:SUM] != text[-SUM:]:
            damaged += 1
            continue
        number = int.from_bytes(text[:8], "little")
        twice += number in seen
        seen.add(number)
    print(f"{len(seen)} arrived, {twice} twice, {damaged} damaged", flush=True)


if __name__ == "__main__":
    words = sys.argv[2:]
    if sys.argv[1] == "send":
        send(words[0], int(words[1]), float(words[2]), float(words[3]))
    else:
        count(words[0], int(words[1]))
