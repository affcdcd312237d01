"""What `gw play FILE` prints for a script of kind `one`, by docs/SCRIPTS.md, docs/FORMATS.md and RFC 4303."""

import hashlib
import hmac
import sys

FILE_LIMIT = 1048576
LEAST_SPI = 256
KEY_LENGTH = 32
CHECK_LENGTH = 16
PAYLOAD_LIMIT = 16384
PACKET_LEAST = 28
PACKET_LIMIT = 16664
BLOCK_COUNTS = (2, 4, 8, 16, 32, 64, 128)
LOW_HALVES = 2**32


class LineRefused(Exception):
    """The line can't be followed: the script ends."""


class Refusal(Exception):
    """What is printed in place of an answer."""


def decimal(word, least, greatest):
    if not word or any(octet not in b"0123456789" for octet in word):
        raise LineRefused
    significant = word.lstrip(b"0") or b"0"
    # Python converts no text of more than some thousand digits; no value here has more than 20.
    if len(significant) > 20:
        raise LineRefused
    value = int(significant)
    if value < least or value > greatest:
        raise LineRefused
    return value


def octets(word):
    if word == b"-":
        return b""
    if not word or len(word) % 2 != 0:
        raise LineRefused
    if any(octet not in b"0123456789abcdefABCDEF" for octet in word):
        raise LineRefused
    return bytes.fromhex(word.decode("ascii"))


def digits(values):
    return values.hex() if values else "-"


class Association:
    def __init__(self, spi, key, blocks, extended):
        self.spi = spi.to_bytes(4, "big")
        self.key = key
        self.span = 64 * (blocks - 1)
        self.extended = extended
        self.last_sent = 0
        self.greatest = 0
        self.taken = set()

    def greatest_number(self):
        return 2**64 - 1 if self.extended else 2**32 - 1

    def check_value(self, covered, sequence):
        if self.extended:
            covered = covered + (sequence // LOW_HALVES).to_bytes(4, "big")
        return hmac.new(self.key, covered, hashlib.sha256).digest()[:CHECK_LENGTH]

    def seal(self, next_header, payload):
        if self.last_sent >= self.greatest_number():
            raise Refusal("E12")
        if len(payload) > PAYLOAD_LIMIT:
            raise Refusal("E13")
        sequence = self.last_sent + 1
        self.last_sent = sequence
        pad_length = -(len(payload) + 2) % 4
        covered = self.spi + (sequence % LOW_HALVES).to_bytes(4, "big") + payload
        covered += bytes(range(1, pad_length + 1)) + bytes([pad_length, next_header])
        return sequence, covered + self.check_value(covered, sequence)

    def lower_edge(self):
        """The least number of the window; below 1 while fewer numbers were sent than it spans."""
        return self.greatest - self.span + 1

    def sequence_of(self, low):
        """The number that a low half stands for."""
        if not self.extended:
            if low == 0:
                raise Refusal("E17")
            return low
        edge = self.lower_edge()
        # The one number with this low half among the 2^32 that begin at the edge.
        sequence = edge + (low - edge) % LOW_HALVES
        if sequence < 1 or sequence > self.greatest_number():
            raise Refusal("E17")
        return sequence

    def open(self, packet):
        if packet[0:4] != self.spi:
            raise Refusal("E28")
        if len(packet) % 4 != 0 or len(packet) < PACKET_LEAST or len(packet) > PACKET_LIMIT:
            raise Refusal("E14")
        sequence = self.sequence_of(int.from_bytes(packet[4:8], "big"))
        if sequence < self.lower_edge():
            raise Refusal("E15")
        if sequence in self.taken:
            raise Refusal("E16")
        covered, check_value = packet[:-CHECK_LENGTH], packet[-CHECK_LENGTH:]
        if self.check_value(covered, sequence) != check_value:
            raise Refusal("E18")
        self.taken.add(sequence)
        self.greatest = max(self.greatest, sequence)
        pad_length, next_header = covered[-2], covered[-1]
        payload_end = len(covered) - 2 - pad_length
        if payload_end < 8 or covered[payload_end:-2] != bytes(range(1, pad_length + 1)):
            raise Refusal("E19")
        return sequence, next_header, covered[8:payload_end]


class Script:
    def __init__(self):
        self.association = None
        self.packets = []

    def packet(self, word):
        return self.packets[decimal(word, 1, len(self.packets)) - 1]

    def begin(self, words):
        if len(words) != 5 or words[0] != b"sa":
            raise LineRefused
        spi = decimal(words[1], LEAST_SPI, 2**32 - 1)
        key = octets(words[2])
        if len(key) != KEY_LENGTH:
            raise LineRefused
        blocks = decimal(words[3], 0, 2**64 - 1)
        if blocks not in BLOCK_COUNTS:
            raise LineRefused
        if words[4] not in (b"yes", b"no"):
            raise LineRefused
        self.association = Association(spi, key, blocks, words[4] == b"yes")

    def deliver(self, packet):
        sequence, next_header, payload = self.association.open(packet)
        return f"up number {sequence} next {next_header} {digits(payload)}"

    def follow(self, words):
        """The printed line."""
        match words:
            case [b"sender", last]:
                self.association.last_sent = decimal(last, 0, self.association.greatest_number())
                return "done"
            case [b"seal", next_header, payload]:
                next_header, payload = decimal(next_header, 0, 255), octets(payload)
                sequence, packet = self.association.seal(next_header, payload)
                self.packets.append(packet)
                return f"sealed {len(self.packets)} number {sequence} length {len(packet)}"
            case [b"deliver", place]:
                return self.deliver(self.packet(place))
            case [b"damage", place, offset, change]:
                packet = bytearray(self.packet(place))
                offset, change = decimal(offset, 0, len(packet) - 1), octets(change)
                if len(change) != 1:
                    raise LineRefused
                packet[offset] ^= change[0]
                return self.deliver(bytes(packet))
            case [b"print", place]:
                return f"packet {self.packet(place).hex()}"
        raise LineRefused


def lines_of(text):
    lines = text.split(b"\n")
    # What stands behind the last line end is a line only if it has octets.
    if lines[-1] == b"":
        lines.pop()
    return lines


def play(text):
    """The printed octets and the status."""
    if len(text) > FILE_LIMIT:
        return b"refused file\n", 1
    lines = lines_of(text)
    if not lines or lines[0] != b"one":
        return b"line 1 refused\n", 1
    script = Script()
    printed = []
    for place, line in enumerate(lines[1:], start=2):
        if line == b"" or line.startswith(b"#"):
            continue
        words = line.split(b" ")
        try:
            if script.association is None:
                script.begin(words)
            else:
                printed.append(script.follow(words))
        except Refusal as refusal:
            printed.append(str(refusal))
        except LineRefused:
            printed.append(f"line {place} refused")
            return "".join(line + "\n" for line in printed).encode(), 1
    return "".join(line + "\n" for line in printed).encode(), 0


def answer(text):
    return play(text)


if __name__ == "__main__":
    with open(sys.argv[1], "rb") as file:
        printed, status = play(file.read())
    sys.stdout.buffer.write(printed)
    sys.exit(status)
