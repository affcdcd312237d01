"""Faults to plant in the models: a name, the model, the text that is replaced, and what replaces it."""

SHOW = "show"
ONE = "one"

FAULTS = [
    ("a header of 27 octets", SHOW, "HEADER_LENGTH:\n        raise Refused(\"E1\")", "27:\n        raise Refused(\"E1\")"),
    ("a message of 3001 octets", SHOW, "MESSAGE_LIMIT = 3000", "MESSAGE_LIMIT = 3001"),
    ("E2 before E9", SHOW,
     """    if len(message) > MESSAGE_LIMIT:
        raise Refused("E9")
    if number(message[24:28]) != len(message):
        raise Refused("E2")
""",
     """    if number(message[24:28]) != len(message):
        raise Refused("E2")
    if len(message) > MESSAGE_LIMIT:
        raise Refused("E9")
"""),
    ("E3 before E2", SHOW,
     """    if number(message[24:28]) != len(message):
        raise Refused("E2")
    if message[17] >> 4 != 2:
        raise Refused("E3")
""",
     """    if message[17] >> 4 != 2:
        raise Refused("E3")
    if number(message[24:28]) != len(message):
        raise Refused("E2")
"""),
    ("the minor version judged", SHOW, "message[17] >> 4 != 2", "message[17] != 0x20"),
    ("another bit for the flag V", SHOW, "(0x10, \"V\")", "(0x04, \"V\")"),
    ("a carriage return skipped nowhere", SHOW, 'b" \\t\\r\\n"', 'b" \\t\\n"'),
    ("a payload of length 3", SHOW, "if length < 4 or end > len(message):", "if length < 3 or end > len(message):"),
    ("octets left over passed over", SHOW,
     "    if at != len(message):\n        raise Refused(f\"E4 at {at}\")\n    return lines",
     "    return lines"),
    ("octets left over at the end's offset", SHOW,
     "    if at != len(message):\n        raise Refused(f\"E4 at {at}\")\n    return lines",
     "    if at != len(message):\n        raise Refused(f\"E4 at {len(message)}\")\n    return lines"),
    ("SK that ends early", SHOW, "if end != len(message):", "if False:"),
    ("the next octet of SK followed", SHOW,
     "            return lines + [f\"  sealed first {following} octets {len(body)}\"]\n",
     "            lines.append(f\"  sealed first {following} octets {len(body)}\")\n            kind, at = following, end\n"
     "            continue\n"),
    ("the fault's offset that of the body", SHOW, "raise Refused(f\"{fault} at {at}\")", "raise Refused(f\"{fault} at {at + 4}\")"),
    ("proposals marked 3", SHOW, "else 2\n", "else 3\n"),
    ("any mark of a transform that isn't last", SHOW, "if octets[at] != mark:", "if mark == 0 and octets[at] != 0:"),
    ("a lone proposal of number 0", SHOW, "if numbers[0] == 0:", "if False:"),
    ("a lone proposal of number 1 alone", SHOW, "if numbers[0] == 0:", "if numbers[0] != 1:"),
    ("proposals numbered anyhow", SHOW, "elif numbers != list(range(1, len(numbers) + 1)):", "elif False:"),
    ("an SA without proposals", SHOW, "if not numbers:\n        raise Fault(\"E5\")", "if not numbers:\n        return lines"),
    ("a proposal without transforms", SHOW, "if count == 0 or len(lines) != count:", "if len(lines) != count:"),
    ("the count of transforms unread", SHOW, "if count == 0 or len(lines) != count:", "if count == 0:"),
    ("long attributes of no octets refused", SHOW, "if at + value > len(octets):", "if value == 0 or at + value > len(octets):"),
    ("the kind of an attribute in 14 bits", SHOW, "kind & 0x7FFF}", "kind & 0x3FFF}"),
    ("1025 octets of KE and AUTH", SHOW, "DATA_LIMIT = 1024", "DATA_LIMIT = 1025"),
    ("255 octets of an identity", SHOW, "IDENTITY_LIMIT = 256", "IDENTITY_LIMIT = 255"),
    ("KE without data", SHOW, "if len(data) < 1 or", "if"),
    ("a nonce of 15 octets", SHOW, "NONCE_LEAST = 16", "NONCE_LEAST = 15"),
    ("a nonce of 255 octets at most", SHOW, "NONCE_LIMIT = 256", "NONCE_LIMIT = 255"),
    ("the SPI of a notice shown as data", SHOW, "spi_end = 4 + body[1]", "spi_end = 4"),
    ("Delete of protocol 1 with a count", SHOW, "if size != 0 or count != 0:", "if size != 0:"),
    ("Delete of AH refused", SHOW, "elif protocol in (2, 3):", "elif protocol == 3:"),
    ("17 selectors", SHOW, "SELECTOR_LIMIT = 16", "SELECTOR_LIMIT = 17"),
    ("ports in reverse", SHOW, "if first_port > last_port:", "if False:"),
    ("one port refused", SHOW, "if first_port > last_port:", "if first_port >= last_port:"),
    ("addresses in reverse", SHOW, "if number(first) > number(last):", "if False:"),
    ("octets behind the selectors", SHOW, "    if at != len(body):\n        raise Fault(\"E6\")\n", ""),
    ("no kind of selector but IPv4", SHOW, "elif form == (8, 40):", "elif False:"),

    ("a window one number shorter", ONE, "self.span = 64 * (blocks - 1)", "self.span = 64 * (blocks - 1) - 1"),
    ("a window one number longer", ONE, "self.span = 64 * (blocks - 1)", "self.span = 64 * (blocks - 1) + 1"),
    ("a window of all its blocks", ONE, "self.span = 64 * (blocks - 1)", "self.span = 64 * blocks"),
    ("numbers recovered from one past the edge", ONE, "edge = self.lower_edge()", "edge = self.lower_edge() + 1"),
    ("numbers recovered from one before the edge", ONE, "edge = self.lower_edge()", "edge = self.lower_edge() - 1"),
    ("numbers recovered from 0 on", ONE, "edge = self.lower_edge()", "edge = max(0, self.lower_edge())"),
    ("the number 0 recovered", ONE, "if sequence < 1 or", "if sequence < 0 or"),
    ("the low half 0 old and not without number", ONE,
     "            if low == 0:\n                raise Refusal(\"E17\")\n", ""),
    ("E16 before E15", ONE,
     """        if sequence < self.lower_edge():
            raise Refusal("E15")
        if sequence in self.taken:
            raise Refusal("E16")
""",
     """        if sequence in self.taken:
            raise Refusal("E16")
        if sequence < self.lower_edge():
            raise Refusal("E15")
"""),
    ("E18 before E16", ONE,
     """        if sequence in self.taken:
            raise Refusal("E16")
        covered, check_value = packet[:-CHECK_LENGTH], packet[-CHECK_LENGTH:]
        if self.check_value(covered, sequence) != check_value:
            raise Refusal("E18")
""",
     """        covered, check_value = packet[:-CHECK_LENGTH], packet[-CHECK_LENGTH:]
        if self.check_value(covered, sequence) != check_value:
            raise Refusal("E18")
        if sequence in self.taken:
            raise Refusal("E16")
"""),
    ("the SPI left to the check value", ONE, "if packet[0:4] != self.spi:", "if False:"),
    ("a number taken before its check", ONE, "        covered, check_value = packet[:-CHECK",
     "        self.taken.add(sequence)\n        covered, check_value = packet[:-CHECK"),
    ("the greatest number the last taken", ONE, "self.greatest = max(self.greatest, sequence)", "self.greatest = sequence"),
    ("the high half not under the check", ONE, "        if self.extended:\n            covered = covered +",
     "        if False:\n            covered = covered +"),
    ("a check value of 12 octets", ONE, "CHECK_LENGTH = 16", "CHECK_LENGTH = 12"),
    ("padding from 0 on", ONE, "bytes(range(1, pad_length + 1)) + bytes([pad_length, next_header])",
     "bytes(range(pad_length)) + bytes([pad_length, next_header])"),
    ("numbers exhausted one early", ONE, "if self.last_sent >= self.greatest_number():",
     "if self.last_sent >= self.greatest_number() - 1:"),
    ("E13 before E12", ONE,
     """        if self.last_sent >= self.greatest_number():
            raise Refusal("E12")
        if len(payload) > PAYLOAD_LIMIT:
            raise Refusal("E13")
""",
     """        if len(payload) > PAYLOAD_LIMIT:
            raise Refusal("E13")
        if self.last_sent >= self.greatest_number():
            raise Refusal("E12")
"""),
    ("a payload of 16,385 octets", ONE, "PAYLOAD_LIMIT = 16384", "PAYLOAD_LIMIT = 16385"),
    ("the number used up by a refused payload", ONE,
     "            raise Refusal(\"E13\")\n", "            self.last_sent += 1\n            raise Refusal(\"E13\")\n"),
    ("the SPI 255", ONE, "LEAST_SPI = 256", "LEAST_SPI = 255"),
    ("no window of 128 blocks", ONE, "64, 128)", "64)"),
    ("comments not counted as lines", ONE, "enumerate(lines[1:], start=2)",
     "enumerate([line for line in lines[1:] if not line.startswith(b\"#\")], start=2)"),
    ("blanks passed over", ONE, "words = line.split(b\" \")", "words = line.split()"),
    ("a damaged octet replaced", ONE, "packet[offset] ^= change[0]", "packet[offset] = change[0]"),
    ("packets counted from 0", ONE, "decimal(word, 1, len(self.packets)) - 1", "decimal(word, 0, len(self.packets) - 1)"),
]
