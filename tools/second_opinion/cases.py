"""Cases for both models, each determined by a seed and its place alone."""

import random

SA, KE, IDI, IDR, CERT, CERTREQ, AUTH, NONCE = 33, 34, 35, 36, 37, 38, 39, 40
NOTIFY, DELETE, VENDOR, TSI, TSR, SK, CP, EAP = 41, 42, 43, 44, 45, 46, 47, 48

FILE_LIMIT = 1048576
HEADER_LENGTH = 28
MESSAGE_LIMIT = 3000


# Messages

class Octets:
    """Octets that remember where their fields stand, so that damage can aim at them."""

    def __init__(self):
        self.octets = bytearray()
        self.fields = []

    def field(self, value, width):
        self.fields.append((len(self.octets), width))
        self.octets += (value % 256**width).to_bytes(width, "big")

    def data(self, octets):
        self.octets += octets

    def append(self, other):
        shift = len(self.octets)
        self.fields += [(at + shift, width) for at, width in other.fields]
        self.octets += other.octets

    def __len__(self):
        return len(self.octets)


class Messages:
    def __init__(self, rng):
        self.rng = rng
        # Where a field may have a value beside the grammar's: nowhere, at one choice alone (its place among all
        # choices), or now and then.
        self.looseness = rng.choice((0, 0, 0.03, 0.1))
        self.loose_at = rng.choice((None, rng.randrange(8), rng.randrange(30)))
        self.choices = 0

    def chance(self, probability):
        return self.rng.random() < probability

    def loose(self):
        self.choices += 1
        if self.loose_at is None:
            return self.chance(self.looseness)
        return self.choices - 1 == self.loose_at

    def some(self, count):
        return self.rng.randbytes(count)

    def size(self, least, greatest):
        if self.loose():
            return max(0, self.rng.choice((least - 1, greatest + 1, 0)))
        if self.chance(0.15):
            return self.rng.choice((least, least + 1, greatest - 1, greatest))
        return self.rng.randint(least, min(greatest, least + 20))

    def reserved(self):
        return self.rng.randrange(256) if self.chance(0.3) else 0

    def near(self, value):
        """The value, or one beside it."""
        return value + self.rng.choice((-1, 1)) if self.loose() else value

    def attribute(self):
        octets = Octets()
        kind = self.rng.choice((14, 14, 0, 1, 0x7FFF, self.rng.randrange(0x8000)))
        if self.chance(0.6):
            octets.field(0x8000 | kind, 2)
            octets.field(self.rng.choice((128, 256, 0, 65535, self.rng.randrange(65536))), 2)
        else:
            value = self.some(self.rng.randint(0, 9))
            octets.field(kind, 2)
            octets.field(self.near(len(value)), 2)
            octets.data(value)
        return octets

    def transform(self, is_last):
        inside = Octets()
        inside.field(self.rng.choice((1, 2, 3, 4, 5, self.rng.randrange(256))), 1)
        inside.field(self.reserved(), 1)
        inside.field(self.rng.choice((5, 11, 12, 65001, self.rng.randrange(65536))), 2)
        for _ in range(self.rng.choice((0, 0, 1, 1, 2, 3))):
            inside.append(self.attribute())
        return self.marked(0 if is_last else 3, inside)

    def marked(self, mark, inside):
        octets = Octets()
        if self.loose():
            mark = self.rng.choice((0, 1, 2, 3, 255))
        octets.field(mark, 1)
        octets.field(self.reserved(), 1)
        octets.field(self.near(4 + len(inside)), 2)
        octets.append(inside)
        return octets

    def proposal(self, place, is_last):
        inside = Octets()
        count = self.size(1, 5)
        spi = self.some(self.rng.choice((0, 0, 4, 4, 8, self.rng.randrange(20))))
        inside.field(self.near(place), 1)
        inside.field(self.rng.choice((0, 1, 2, 3, self.rng.randrange(256))), 1)
        inside.field(self.near(len(spi)), 1)
        inside.field(self.near(count), 1)
        inside.data(spi)
        for at in range(count):
            inside.append(self.transform(at == count - 1))
        return self.marked(0 if is_last else 2, inside)

    def sa(self):
        octets = Octets()
        count = self.rng.choice((1, 1, 1, 2, 2, 3, 4))
        if self.loose():
            count = 0
        first = 1
        if count == 1 and self.chance(0.3):
            first = self.rng.choice((1, 2, 255, self.rng.randint(1, 255)))
            if self.loose():
                first = 0
        for at in range(count):
            octets.append(self.proposal(first + at, at == count - 1))
        return octets

    def with_data(self, width, greatest):
        octets = Octets()
        octets.field(self.rng.randrange(256**width), width)
        for _ in range(4 - width):
            octets.data(bytes([self.reserved()]))
        octets.data(self.some(self.size(1, greatest)))
        return octets

    def ke(self):
        return self.with_data(2, 1024)

    def identity(self):
        return self.with_data(1, 256)

    def auth(self):
        return self.with_data(1, 1024)

    def nonce(self):
        octets = Octets()
        octets.data(self.some(self.size(16, 256)))
        return octets

    def notify(self):
        octets = Octets()
        spi = self.some(self.rng.choice((0, 0, 4, 8, self.rng.randrange(30))))
        octets.field(self.rng.randrange(256), 1)
        octets.field(self.near(len(spi)), 1)
        octets.field(self.rng.choice((1, 7, 16390, 65535, self.rng.randrange(65536))), 2)
        octets.data(spi)
        octets.data(self.some(self.rng.choice((0, 0, 1, 2, self.rng.randrange(40)))))
        return octets

    def delete(self):
        octets = Octets()
        protocol = self.rng.choice((1, 2, 3))
        count = 0 if protocol == 1 else self.rng.choice((0, 1, 2, 3, self.rng.randrange(20)))
        if self.loose():
            octets.field(self.rng.choice((0, 1, 2, 3, 4, 255)), 1)
        else:
            octets.field(protocol, 1)
        octets.field(self.near(0 if protocol == 1 else 4), 1)
        octets.field(self.near(count), 2)
        octets.data(self.some(4 * count))
        return octets

    def selector(self):
        octets = Octets()
        kind, size = self.rng.choice(((7, 4), (8, 16)))
        ports = sorted(self.rng.choice((0, 65535, self.rng.randrange(65536))) for _ in range(2))
        ends = sorted((self.some(size), self.some(size)))
        if self.chance(0.2):
            ends[1] = ends[0]
        elif self.chance(0.3):
            # Ends that differ in one octet alone.
            near = bytearray(ends[0])
            near[self.rng.randrange(size)] ^= 1 << self.rng.randrange(8)
            ends = sorted((ends[0], bytes(near)))
        if self.chance(0.1):
            ends = [bytes(size), b"\xff" * size]
        if self.chance(0.2):
            ports[1] = ports[0]
        if self.loose():
            ends.reverse()
        if self.loose():
            ports.reverse()
        octets.field(self.near(kind), 1)
        octets.field(self.rng.choice((0, 6, 17, self.rng.randrange(256))), 1)
        octets.field(self.near(8 + 2 * size), 2)
        octets.field(ports[0], 2)
        octets.field(ports[1], 2)
        for end in ends:
            at = len(octets)
            octets.data(end)
            octets.fields.append((at, 1))
        return octets

    def selectors(self):
        octets = Octets()
        count = self.rng.choice((1, 1, 2, 3, self.rng.randint(1, 16), 16))
        if self.loose():
            count = self.rng.choice((0, 17))
        octets.field(self.near(count), 1)
        octets.field(self.reserved(), 1)
        octets.data(bytes([self.reserved(), self.reserved()]))
        for _ in range(count):
            octets.append(self.selector())
        return octets

    def other(self):
        octets = Octets()
        octets.data(self.some(self.rng.choice((0, 1, self.rng.randrange(40)))))
        return octets

    def payload(self):
        """A payload's type and its body."""
        kind = self.rng.choice(
            (SA, SA, SA, KE, IDI, IDR, AUTH, NONCE, NOTIFY, NOTIFY, DELETE, DELETE, TSI, TSI, TSR, TSR, None)
        )
        if kind is None:
            kind = self.rng.choice(
                (CERT, CERTREQ, VENDOR, CP, EAP, 1, 32, 49, 53, 255, self.rng.randint(1, 32), self.rng.randint(49, 255))
            )
        body = {
            SA: self.sa, KE: self.ke, IDI: self.identity, IDR: self.identity, AUTH: self.auth, NONCE: self.nonce,
            NOTIFY: self.notify, DELETE: self.delete, TSI: self.selectors, TSR: self.selectors,
        }.get(kind, self.other)()
        if self.loose():
            self.cut_or_lengthen(body)
        return kind, body

    def cut_or_lengthen(self, body):
        if self.chance(0.5) and len(body) > 0:
            kept = max(0, len(body) - self.rng.choice((1, 1, 2, 4, 8, self.rng.randint(1, len(body)))))
            del body.octets[kept:]
            body.fields = [(at, width) for at, width in body.fields if at + width <= kept]
        else:
            body.data(self.some(self.rng.choice((1, 1, 2, 4, 8, 16))))

    def payloads(self):
        chosen = []
        length = HEADER_LENGTH
        wanted = self.rng.choice((0, 1, 1, 1, 2, 2, 3, 4, 6, 30))
        for _ in range(wanted):
            kind, body = self.payload()
            if length + 4 + len(body) > MESSAGE_LIMIT:
                break
            chosen.append((kind, body))
            length += 4 + len(body)
        if self.chance(0.03):
            # The limit of a message, met exactly and passed by one.
            rest = MESSAGE_LIMIT - length - 4 + self.rng.choice((-1, 0, 0, 1))
            if rest >= 0:
                filling = Octets()
                filling.data(self.some(rest))
                chosen.append((VENDOR, filling))
        if self.chance(0.2):
            chosen.insert(self.rng.randint(0, len(chosen)) if self.loose() else len(chosen), (SK, self.other()))
        return chosen

    def message(self):
        chosen = self.payloads()
        octets = Octets()
        octets.data(self.some(16) if self.chance(0.7) else bytes(16))
        octets.field(chosen[0][0] if chosen else 0, 1)
        octets.field(0x20 | (self.rng.randrange(16) if self.chance(0.3) else 0), 1)
        octets.field(self.rng.choice((34, 35, 36, 37, self.rng.randrange(256))), 1)
        octets.field(self.rng.choice((0x08, 0x20, 0x28, 0, 0x10, self.rng.randrange(256))), 1)
        octets.field(self.rng.choice((0, 1, 2**32 - 1, self.rng.randrange(2**32))), 4)
        octets.field(HEADER_LENGTH + sum(4 + len(body) for _, body in chosen), 4)
        for place, (kind, body) in enumerate(chosen):
            following = chosen[place + 1][0] if place + 1 < len(chosen) else 0
            if kind == SK and following == 0:
                following = self.rng.choice((0, 33, 35, 42, self.rng.randrange(256)))
            octets.field(following, 1)
            octets.field(self.reserved() | (0x80 if self.chance(0.2) else 0), 1)
            octets.field(self.near(4 + len(body)), 2)
            octets.append(body)
        return octets

    def damaged(self, message):
        octets = message.octets
        damage = self.rng.choice(("field", "field", "field", "octet", "cut", "longer", "inside", "version", "zeros"))
        if damage == "field":
            at, width = self.rng.choice(message.fields)
            old = int.from_bytes(octets[at:at + width], "big")
            new = self.rng.choice(
                (old + 1, old - 1, old + 1, old - 1, 0, 1, 256**width - 1, self.rng.randrange(256**width))
            )
            octets[at:at + width] = (new % 256**width).to_bytes(width, "big")
        elif damage == "octet":
            octets[self.rng.randrange(len(octets))] = self.rng.randrange(256)
        elif damage == "cut":
            kept = self.rng.choice((self.rng.randrange(len(octets)), max(0, len(octets) - self.rng.randint(1, 8))))
            del octets[kept:]
            self.tell_length(octets)
        elif damage == "longer":
            octets += self.some(self.rng.choice((1, 2, 3, 4, 8, self.rng.randint(1, 40))))
            self.tell_length(octets)
        elif damage == "inside":
            at = self.rng.randrange(len(octets))
            if self.chance(0.5):
                del octets[at:at + self.rng.randint(1, 4)]
            else:
                octets[at:at] = self.some(self.rng.randint(1, 4))
            self.tell_length(octets)
        elif damage == "version":
            octets[17] = self.rng.randrange(256)
        elif damage == "zeros":
            at = self.rng.randrange(len(octets))
            octets[at:at + 4] = bytes(len(octets[at:at + 4]))
        message.fields = [(at, width) for at, width in message.fields if at + width <= len(octets)] or [(0, 0)]

    def tell_length(self, octets):
        if self.chance(0.8) and len(octets) >= HEADER_LENGTH:
            octets[24:28] = len(octets).to_bytes(4, "big")

    def text(self, octets):
        digits = octets.hex()
        style = self.rng.choice(("plain", "plain", "upper", "mixed", "lines", "crlf", "spaced"))
        if style == "upper":
            digits = digits.upper()
        elif style == "mixed":
            digits = "".join(self.rng.choice((digit.upper(), digit)) for digit in digits)
        elif style in ("lines", "crlf"):
            width = self.rng.randint(1, 64)
            end = "\n" if style == "lines" else "\r\n"
            digits = "".join(digits[at:at + width] + end for at in range(0, len(digits), width))
        elif style == "spaced":
            digits = "".join(digit + self.rng.choice(("", "", " ", "\t", "\n", "\r\n", "  ")) for digit in digits)
        text = (self.rng.choice(("", "", "", "\n", " ", "\t")) + digits + self.rng.choice(("", "\n", "\n\n", " ", "\r\n"))).encode()
        if self.chance(0.06):
            text = self.broken_text(text)
        return text

    def broken_text(self, text):
        at = self.rng.randint(0, len(text))
        if self.chance(0.3):
            return text[:at] + text[at + 1:]
        wrong = self.rng.choice((b"0", b"g", b"G", b"x", b"0x", b"-", b":", b",", b"#", b"/", b"@", b"`",
                                 b"\0", b"\v", b"\f", b"\x80", b"\xff", b"\xc2\xa0", b"\xef\xbb\xbf"))
        return text[:at] + wrong + text[at:]


def show_case(seed, place):
    rng = random.Random(f"show {seed} {place}")
    messages = Messages(rng)
    message = messages.message()
    if messages.chance(0.45):
        for _ in range(rng.choice((1, 1, 1, 2))):
            if message.octets and message.fields:
                messages.damaged(message)
    return messages.text(bytes(message.octets))


def header(length, first=0, version=0x20):
    return bytes(16) + bytes([first, version, 34, 8]) + bytes(4) + length.to_bytes(4, "big")


def message_of(kind, body, told=None, following=0):
    """A message of one payload, whose header tells its length, or another."""
    told = 4 + len(body) if told is None else told
    return header(32 + len(body), first=kind) + bytes([following, 0]) + told.to_bytes(2, "big") + body


def transform_of(mark, attributes=b"", told=None):
    told = 8 + len(attributes) if told is None else told
    return bytes([mark, 0]) + told.to_bytes(2, "big") + b"\1\0\0\x0c" + attributes


def proposal_of(mark, place, transforms, count=1, spi=b"", told=None):
    told = 8 + len(spi) + len(transforms) if told is None else told
    return bytes([mark, 0]) + told.to_bytes(2, "big") + bytes([place, 1, len(spi), count]) + spi + transforms


def selector_of(kind, told, ports, start, end):
    return bytes([kind, 6]) + told.to_bytes(2, "big") + b"".join(port.to_bytes(2, "big") for port in ports) + start + end


def payload_corners():
    """Messages of one payload at the edges of its grammar."""
    messages = [message_of(kind, b"") for kind in range(256)]
    messages += [message_of(kind, bytes(range(1, 25))) for kind in range(30, 52)]
    messages += [message_of(kind, bytes(size)) for kind in range(33, 49) for size in range(1, 9)]
    messages += [message_of(VENDOR, b"", told=told) for told in (0, 1, 2, 3, 5, 65535)]
    messages += [message_of(VENDOR, b"\1\2\3\4", told=told) for told in (3, 4, 5, 6, 7, 9)]
    messages += [message_of(VENDOR, b"", following=following) for following in (1, SA, SK, 255)]
    messages += [message_of(SK, b"\1\2\3\4", told=told, following=VENDOR) for told in (3, 4, 7, 8, 9)]
    messages += [message_of(SA, b"", told=3, following=SA), message_of(NONCE, bytes(15), following=1)]
    messages += [message_of(NONCE, bytes(size)) for size in (15, 16, 17, 255, 256, 257)]
    for kind in (KE, AUTH, IDI, IDR):
        messages += [message_of(kind, bytes(4 + size)) for size in (0, 1, 2, 255, 256, 257, 1023, 1024, 1025)]
    for protocol in range(5):
        for size in (0, 3, 4, 5):
            for count in (0, 1, 2, 256):
                for octets in (0, 4, 8):
                    messages.append(message_of(DELETE, bytes([protocol, size]) + count.to_bytes(2, "big") + bytes(octets)))
    messages += [message_of(NOTIFY, bytes([1, size, 0, 7]) + bytes(5)) for size in (0, 1, 4, 5, 6, 255)]

    last = transform_of(0)
    for places in ((0,), (1,), (2,), (255,), (1, 2), (2, 3), (1, 1), (1, 3), (2, 1), (0, 1), (1, 2, 3), (1, 2, 2)):
        marks = [2] * (len(places) - 1) + [0]
        messages.append(message_of(SA, b"".join(proposal_of(mark, place, last) for mark, place in zip(marks, places))))
    for mark in (0, 1, 2, 3, 255):
        messages.append(message_of(SA, proposal_of(mark, 1, last)))
        messages.append(message_of(SA, proposal_of(mark, 1, last) + proposal_of(0, 2, last)))
        messages.append(message_of(SA, proposal_of(0, 1, transform_of(mark))))
        messages.append(message_of(SA, proposal_of(0, 1, transform_of(mark) + last, count=2)))
    for count in (0, 1, 2, 3, 255):
        messages.append(message_of(SA, proposal_of(0, 1, b"", count=count)))
        messages.append(message_of(SA, proposal_of(0, 1, transform_of(3) + last, count=count)))
    messages.append(message_of(SA, proposal_of(0, 1, transform_of(3) * 254 + last, count=255)))
    messages.append(message_of(SA, proposal_of(0, 1, transform_of(3) * 256 + last, count=1)))
    for told in (0, 7, 8, 15, 16, 17, 20):
        messages.append(message_of(SA, proposal_of(0, 1, last, told=told)))
        messages.append(message_of(SA, proposal_of(0, 1, last, told=told, spi=b"\1\2\3\4")))
        messages.append(message_of(SA, proposal_of(0, 1, transform_of(0, told=told))))
    messages.append(message_of(SA, proposal_of(0, 1, last, spi=bytes(range(255)))))
    for attributes in (b"\x80", b"\x80\x0e", b"\x80\x0e\0", b"\x80\x0e\1\0", b"\xff\xff\xff\xff", b"\x80\x0e\1\0\0",
                       b"\0\x0e\0\0", b"\0\x0e\0\1", b"\0\x0e\0\1\xab", b"\x7f\xff\0\2\xab\xcd", b"\0\x0e\0\1\xab\xcd",
                       b"\0\0\0\0\x80\0\0\0"):
        messages.append(message_of(SA, proposal_of(0, 1, transform_of(0, attributes))))

    four = selector_of(7, 16, (0, 65535), b"\x0a\0\0\0", b"\x0a\0\0\xff")
    six = selector_of(8, 40, (0, 65535), bytes(15) + b"\1", b"\xff" * 16)
    for kind in (TSI, TSR):
        for selectors in ([], [four], [six], [four, six], [six, four] * 8, [four] * 15, [four] * 16, [four] * 17):
            for count in (len(selectors), len(selectors) + 1, max(0, len(selectors) - 1), 255):
                messages.append(message_of(kind, bytes([count, 0, 0, 0]) + b"".join(selectors)))
    one = b"\1\2\3\4"
    for selector in (
        selector_of(7, 16, (1, 1), one, one), selector_of(7, 16, (2, 1), one, one), selector_of(7, 16, (65535, 0), one, one),
        selector_of(7, 16, (0, 1), one, b"\1\2\3\3"), selector_of(7, 16, (0, 1), b"\2\0\0\0", b"\1\xff\xff\xff"),
        selector_of(7, 15, (0, 1), one, one), selector_of(7, 17, (0, 1), one, one), selector_of(7, 40, (0, 1), one, one),
        selector_of(7, 40, (0, 1), one * 4, one * 4), selector_of(8, 16, (0, 1), one, one), selector_of(9, 16, (0, 1), one, one),
        selector_of(6, 16, (0, 1), one, one), selector_of(8, 40, (0, 1), one * 4, one * 4),
        selector_of(8, 40, (0, 1), one * 4, one * 3 + b"\1\2\3\3"), selector_of(8, 39, (0, 1), one * 4, one * 4),
        selector_of(8, 41, (0, 1), one * 4, one * 4), four[:-1], four + b"\0", six[:-1], four[:8], four[:7],
    ):
        messages.append(message_of(TSI, b"\1\0\0\0" + selector))
    return [message.hex().encode() for message in messages]


def show_corners():
    """Cases at the edges of the file, of the header and of each payload, which no seed changes."""
    whole = header(28).hex().encode()
    cases = [b"", b"\n", b" \t\r\n", b"0", b"-", b"zz", b"\r", whole[:20] + b"\r" + whole[20:], whole + b"\r"]
    cases += [(bytes(length)).hex().encode() for length in (1, 27, 28, 29)]
    cases += [header(length).hex().encode() for length in (0, 27, 28, 29, 2**32 - 1)]
    # Two faults of the header in one message, for each two that can meet.
    cases += [
        header(27, version=0x10)[:27].hex().encode(),
        header(29, version=0x10).hex().encode(),
        header(28, version=0x30).hex().encode(),
        header(28, version=0x2F).hex().encode(),
        header(28, first=33, version=0x10).hex().encode(),
    ]
    for length in (2999, 3000, 3001, 4000, 65536):
        body = (length - 28).to_bytes(2, "big") if length < 65536 else b"\0\0"
        for told in (length, length - 1):
            for version in (0x20, 0x10):
                message = header(told, first=VENDOR, version=version) + b"\0\0" + body + bytes(length - 32)
                cases.append(message.hex().encode())
    cases.append(whole + b" " * (FILE_LIMIT - len(whole)))
    cases.append(whole + b" " * (FILE_LIMIT - len(whole) + 1))
    cases.append(b"00" * (FILE_LIMIT // 2))
    cases.append(b"g" * (FILE_LIMIT + 1))
    return cases + payload_corners()


# Scripts of kind `one`

TOPS = {True: 2**64 - 1, False: 2**32 - 1}
KEY = "0123456789abcdefFEDCBA9876543210" * 2


def edges(count, length, top):
    """Lines that aren't followed, and edges of such that are, where `count` packets are kept, the last of that length."""
    return [
        "sa 256 " + KEY + " 2 no",
        "one", "two", "Seal 4 -", "DELIVER 1", "tick A 1", "deliver", "print", "seal 4", "sender", "damage 1 0", "damage 1",
        f"deliver {count + 1}", f"print {count + 1}", "deliver 0", "print 0", f"deliver {2**64 + 1}",
        f"deliver {2**32 + 1}", f"damage {count + 1} 0 01", "damage 0 0 01",
        "seal 256 -", "seal -1 00", "seal 4 0", "seal 4 000", "seal 4 0x00", "seal 4 0g", "seal 4 --", "seal 4 -00",
        "seal 0x4 -", "seal +4 -", "seal  4 -", "seal 4 -  ", "seal 4 - ", " seal 4 -", "seal 4 - -", "seal\t4 -",
        "seal 4 00 00", "seal 4 ", "seal 260 -", f"seal {2**64 + 4} -", f"seal {2**32 + 4} -", "seal 255 AbCdEf",
        "seal " + "0" * 5000 + "4 -", "deliver " + "0" * 5000 + "1", "damage 01 00 aB",
        f"sender {top}", f"sender {top + 1}", f"sender {2**32 - 1}", f"sender {2**32}", f"sender {2**64}", f"sender {10**40}",
        f"sender {2**64 - 1}", "sender 1.0", "sender 1e3", "sender 1_0", "sender -", "sender 0", "sender ", "sender 1 2",
        " # no comment", "#comment", "", "seal 4 -\r", "\r", "deliver 1\r", " ", "\t", "\0", "quit", "print 1 1", "deliver 1 1",
        f"damage {count} {length} 01", f"damage {count} {length} 00", f"damage {count} {length - 1} 00",
        f"damage {count} {length - 1} 1", f"damage {count} 0 001", f"damage {count} 0 -", f"damage {count} 0 ",
        f"damage {count} 0 0101", f"damage {count} {2**64} 01", f"damage {count} {2**32} 01",
        f"damage {count} -1 01", f"damage {count} 0 01 01", f"damage {count} 0 0g", f"damage {count} 0 FF",
    ]


def wrong_openings():
    spis = ("255", "0", str(2**32), str(2**32 + 256), str(2**64 + 256), "0x100", "-1", "")
    keys = (KEY[2:], KEY + "00", KEY[1:], "-", "", "0x" + KEY[2:], KEY[:-1] + "g", KEY + "-")
    blocks = ("0", "1", "3", "5", "6", "7", "127", "129", "192", "256", str(2**32 + 2), str(2**64 + 2), "")
    extended = ("Yes", "YES", "No", "y", "n", "true", "", "yes ", "no\r")
    return (
        [f"sa {spi} {KEY} 2 no" for spi in spis]
        + [f"sa 256 {key} 2 no" for key in keys]
        + [f"sa 256 {KEY} {count} no" for count in blocks]
        + [f"sa 256 {KEY} 2 {word}" for word in extended]
        + [f"sa 256 {KEY} 2", f"sa 256 {KEY} 2 no no", f"sa 256  {KEY} 2 no", f"Sa 256 {KEY} 2 no", " sa", "sa", "sa "]
        + ["seal 4 00", "sender 1", "deliver 1", "print 1", "damage 1 0 00", "one", "extended yes"]
    )


class Scripts:
    def __init__(self, rng):
        self.rng = rng
        self.blocks = rng.choice((2, 2, 2, 4, 8, 16, 32, 64, 128))
        self.extended = rng.random() < 0.6
        self.span = 64 * (self.blocks - 1)
        self.top = TOPS[self.extended]
        self.last = 0
        self.greatest = 0
        self.spi = rng.choice((256, 257, 2**32 - 1, rng.randint(256, 2**32 - 1)))
        # The number and the length of each packet.
        self.sealed = []
        self.jumps = rng.choice((0.1, 0.35, 0.6))

    def chance(self, probability):
        return self.rng.random() < probability

    def decimal(self, value):
        zeros = "0" * self.rng.choice((1, 2, 20, 5000)) if self.chance(0.02) else ""
        return f"{zeros}{value}"

    def hex(self, octets):
        digits = octets.hex() or "-"
        return digits.upper() if self.chance(0.1) else digits

    def opening(self):
        key = self.rng.choice((self.rng.randbytes(32), bytes(32)))
        extended = "yes" if self.extended else "no"
        return f"sa {self.decimal(self.spi)} {self.hex(key)} {self.decimal(self.blocks)} {extended}"

    def target(self):
        """A number worth to be sealed next: at an edge of the window, of the halves or of all numbers."""
        near = self.rng.choice((-2, -1, 0, 1, 2))
        return near + self.rng.choice((
            self.greatest - self.span,
            self.greatest - self.span + 1,
            self.greatest,
            self.greatest + self.span,
            self.greatest + 64,
            self.greatest + 2**32,
            self.greatest + 2**32 - self.span,
            self.greatest - 2**32,
            self.greatest // 2**32 * 2**32,
            self.greatest // 2**32 * 2**32 + 2**32,
            2**32,
            2**63,
            self.top,
            self.rng.randint(1, 200),
            self.rng.randint(max(1, self.greatest - self.span), self.greatest + self.span),
            self.rng.randint(1, self.top),
        ))

    def sender(self):
        for _ in range(20):
            last = self.target() - 1
            if 0 <= last <= self.top:
                self.last = last
                break
        return f"sender {self.decimal(self.last)}"

    def seal(self):
        size = self.rng.choice((0, 1, 2, 3, 4, 20, self.rng.randrange(60)))
        if self.chance(0.004):
            size = self.rng.choice((16383, 16384, 16385, 16386))
        payload = self.rng.randbytes(size)
        next_header = self.rng.choice((4, 4, 41, 59, 0, 255, self.rng.randrange(256)))
        if self.last < self.top and size <= 16384:
            self.last += 1
            self.sealed.append((self.last, 26 + size + -(size + 2) % 4))
        return f"seal {self.decimal(next_header)} {self.hex(payload)}"

    def place(self):
        count = len(self.sealed)
        return self.rng.randint(max(1, count - 3), count) if self.chance(0.7) else self.rng.randint(1, count)

    def deliver(self):
        place = self.place()
        sequence = self.sealed[place - 1][0]
        if not self.extended or sequence <= self.greatest + 2**32 - self.span:
            self.greatest = max(self.greatest, sequence)
        return f"deliver {self.decimal(place)}"

    def damage(self):
        place = self.place()
        sequence, length = self.sealed[place - 1]
        offset = self.rng.choice((0, 3, 4, 5, 6, 7, 7, 8, length - 19, length - 18, length - 17, length - 16, length - 1,
                                  self.rng.randrange(length)))
        change = self.rng.choice((0, 1, 2, 0x80, 0x40, 255, sequence & 255, self.rng.randrange(256)))
        return f"damage {self.decimal(place)} {self.decimal(max(0, offset))} {self.hex(bytes([change]))}"

    def directive(self):
        if self.chance(self.jumps):
            return self.sender()
        if not self.sealed or self.chance(0.4):
            return self.seal()
        if self.chance(0.75):
            return self.deliver()
        if self.chance(0.8):
            return self.damage()
        return f"print {self.decimal(self.place())}"

    def beside(self):
        length = self.sealed[-1][1] if self.sealed else 0
        return self.rng.choice(edges(len(self.sealed), length, self.top))

    def comment(self):
        return self.rng.choice((b"", b"#", b"# words", b"#\xff\x80\0", "# ü".encode(), b"#\r", b"# seal 4 -"))

    def script(self):
        lines = [b"one"]
        if self.chance(0.02):
            lines = [self.rng.choice((b"One", b"one ", b" one", b"one\r", b"", b"# one", b"ones", b"on", b"\xef\xbb\xbfone"))]
        if self.chance(0.06):
            lines.append(self.rng.choice(wrong_openings()).encode())
        lines.append(self.opening().encode())
        wrong_at = self.rng.randrange(40) if self.chance(0.3) else -1
        for place in range(self.rng.choice((5, 20, 40, 80))):
            if place == wrong_at:
                line = self.beside().encode()
                if self.chance(0.05):
                    line += self.rng.choice((b"\xff", b"\x80", b"\0"))
                lines.append(line)
            if self.chance(0.05):
                lines.append(self.comment())
            lines.append(self.directive().encode())
        return b"\n".join(lines) + self.rng.choice((b"\n", b"\n", b"", b"\n\n", b"\n#"))


def script_case(seed, place):
    return Scripts(random.Random(f"script {seed} {place}")).script()


def walk(blocks, extended, first, count):
    """All of a window: numbers in turn, each delivered, and then each again."""
    lines = ["one", f"sa 4096 {'0b' * 32} {blocks} {extended}", f"sender {first - 1}"]
    lines += ["seal 4 00"] * count
    lines += [f"deliver {place}" for place in range(1, count + 1)]
    lines += [f"deliver {place}" for place in range(1, count + 1)]
    return "".join(line + "\n" for line in lines).encode()


def script_corners():
    """Cases at the edges of the file and of lines, and whole windows, which no seed changes."""
    opening = b"one\nsa 256 " + b"0b" * 32 + b" 2 no\n"
    cases = [b"", b"\n", b"one", b"one\n", b"one\n\n", b"\none", b"one\r\n", b"#\none\n", b"one\nsa", opening,
             opening[:-1], opening + b"seal 4 -\ndeliver 1", opening + b"seal 4 -\r\n", opening + opening]
    filling = b"#" * (FILE_LIMIT - len(opening))
    cases += [f"one\n{line}\nseal 4 -\nsa 256 {KEY} 2 no\n".encode() for line in wrong_openings()]
    for blocks in (2, 4, 8, 16, 32, 64, 128):
        cases.append(f"one\nsa 00256 {KEY.lower()} {blocks} yes\nseal 4 -\nprint 1\n".encode())
    for extended, top in (("no", TOPS[False]), ("yes", TOPS[True])):
        for line in edges(2, 28, top):
            cases.append(f"one\nsa 4294967295 {KEY} 2 {extended}\nseal 4 ab\nseal 4 -\n{line}\nseal 4 -\ndeliver 2\n".encode())
    cases += [opening + filling, opening + filling + b"#", b"#" * (FILE_LIMIT + 1)]
    largest = b"ab" * 16384
    cases.append(opening + b"seal 4 " + largest + b"\nseal 4 " + largest + b"ab\nprint 1\ndeliver 1\nsender 4294967295\n"
                 + b"seal 4 " + largest + b"ab\n")
    for blocks in (2, 4):
        for extended in ("no", "yes"):
            cases.append(walk(blocks, extended, 1, 64 * blocks + 5))
    cases.append(walk(2, "yes", 2**32 - 70, 140))
    cases.append(walk(4, "yes", 2**64 - 300, 302))
    cases.append(walk(2, "no", 2**32 - 70, 75))
    return cases
