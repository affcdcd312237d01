#!/usr/bin/env python3
"""Garbage as fast as it goes: garbage.py ike|esp FROM TO SECONDS [SPI ..]

Of IKE it is random octets, whole headers with a random body, and first requests that begin well. Of ESP it is random octets, half of
them behind one of the SPIs, which are hexadecimal. It tells how many datagrams the kernel took.
"""
import random
import socket
import struct
import sys
import time

CHANCE = random.Random(1)
# RFC 7296 section 3.1: IKE_SA_INIT, IKE_AUTH, CREATE_CHILD_SA, INFORMATIONAL; an initiator's request and a responder's answer.
EXCHANGES, FLAGS = (34, 35, 36, 37), (0x08, 0x20, 0x28, 0x00)
SECURITY_ASSOCIATION, NONCE = 33, 40


def of_ike():
    body = CHANCE.randbytes(CHANCE.randrange(1400))
    kind = CHANCE.randrange(3)
    if kind == 0:
        return body
    spis = struct.pack(">QQ", CHANCE.getrandbits(64), CHANCE.getrandbits(64) if kind == 1 else 0)
    if kind == 1:
        exchange, flags, number, first = CHANCE.choice(EXCHANGES), CHANCE.choice(FLAGS), CHANCE.randrange(4), CHANCE.choice((0, 33, 46))
    else:
        exchange, flags, number, first = EXCHANGES[0], FLAGS[0], 0, SECURITY_ASSOCIATION
        body = struct.pack(">BBH", NONCE, 0, 4 + len(body)) + body
    return spis + struct.pack(">BBBBII", first, 0x20, exchange, flags, number, 28 + len(body)) + body


def of_esp(spis):
    spi = CHANCE.choice(spis) if spis and CHANCE.random() < 0.5 else CHANCE.getrandbits(32)
    return struct.pack(">II", spi, CHANCE.getrandbits(32)) + CHANCE.randbytes(CHANCE.randrange(1400))


def main():
    kind, begin, end, seconds = sys.argv[1:5]
    spis = [int(spi, 16) for spi in sys.argv[5:]]
    if kind == "ike":
        link = socket.socket(socket.AF_INET, socket.SOCK_DGRAM)
        pool = [of_ike() for _ in range(5000)]
    else:
        link = socket.socket(socket.AF_INET, socket.SOCK_RAW, 50)
        # It reads nothing, so what comes here is not to be kept.
        link.setsockopt(socket.SOL_SOCKET, socket.SO_RCVBUF, 0)
        pool = [of_esp(spis) for _ in range(5000)]
    link.bind((begin, 0))
    link.connect((end, 500 if kind == "ike" else 0))
    until, sent = time.monotonic() + float(seconds), 0
    while time.monotonic() < until:
        for text in pool:
            try:
                link.send(text)
                sent += 1
            except OSError:
                pass
    print(sent)


if __name__ == "__main__":
    main()
