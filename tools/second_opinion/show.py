"""What `gw show FILE` prints for the octets of FILE, by docs/FORMATS.md and RFC 7296 section 3."""

import sys

FILE_LIMIT = 1048576
HEADER_LENGTH = 28
MESSAGE_LIMIT = 3000
DATA_LIMIT = 1024
IDENTITY_LIMIT = 256
NONCE_LEAST = 16
NONCE_LIMIT = 256
SELECTOR_LIMIT = 16

SA, KE, IDI, IDR, CERT, CERTREQ, AUTH, NONCE = 33, 34, 35, 36, 37, 38, 39, 40
NOTIFY, DELETE, VENDOR, TSI, TSR, SK, CP, EAP = 41, 42, 43, 44, 45, 46, 47, 48

FLAGS = ((0x08, "I"), (0x10, "V"), (0x20, "R"))


class Refused(Exception):
    """A whole message is refused; the text is what stands behind the word `refused`."""


class Fault(Exception):
    """A payload is at fault; the text is the refusal's name, without an offset."""


def number(octets):
    return int.from_bytes(octets, "big")


def digits(octets):
    return octets.hex() if octets else "-"


def octets_of_text(text):
    # The documents leave a carriage return without a line feed open; the program skips it as a line end.
    kept = bytes(octet for octet in text if octet not in b" \t\r\n")
    if any(octet not in b"0123456789abcdefABCDEF" for octet in kept):
        raise Refused("hex")
    if len(kept) % 2 != 0:
        raise Refused("hex")
    return bytes.fromhex(kept.decode("ascii"))


def check_header(message):
    if len(message) < HEADER_LENGTH:
        raise Refused("E1")
    if len(message) > MESSAGE_LIMIT:
        raise Refused("E9")
    if number(message[24:28]) != len(message):
        raise Refused("E2")
    if message[17] >> 4 != 2:
        raise Refused("E3")


def show_header(message):
    names = "".join(name for bit, name in FLAGS if message[19] & bit)
    return [
        f"ike {message[0:8].hex()} {message[8:16].hex()}",
        f"exchange {message[18]} flags {names or '-'} id {number(message[20:24])} length {len(message)}",
    ]


def show_attributes(octets):
    text = ""
    at = 0
    while at < len(octets):
        if at + 4 > len(octets):
            raise Fault("E5")
        kind = number(octets[at:at + 2])
        value = number(octets[at + 2:at + 4])
        at += 4
        if kind & 0x8000:
            text += f" attr {kind & 0x7FFF} {value}"
        else:
            if at + value > len(octets):
                raise Fault("E5")
            text += f" attr {kind} {digits(octets[at:at + value])}"
            at += value
    return text


def show_transforms(octets, count):
    lines = []
    at = 0
    while at < len(octets):
        if at + 8 > len(octets):
            raise Fault("E5")
        length = number(octets[at + 2:at + 4])
        end = at + length
        if length < 8 or end > len(octets):
            raise Fault("E5")
        mark = 0 if end == len(octets) else 3
        if octets[at] != mark:
            raise Fault("E5")
        kind = octets[at + 4]
        identifier = number(octets[at + 6:at + 8])
        lines.append(f"    transform {kind} {identifier}{show_attributes(octets[at + 8:end])}")
        at = end
    if count == 0 or len(lines) != count:
        raise Fault("E5")
    return lines


def show_sa(body):
    lines = []
    numbers = []
    at = 0
    while at < len(body):
        if at + 8 > len(body):
            raise Fault("E5")
        length = number(body[at + 2:at + 4])
        end = at + length
        spi_end = at + 8 + body[at + 6]
        if length < 8 or spi_end > end or end > len(body):
            raise Fault("E5")
        mark = 0 if end == len(body) else 2
        if body[at] != mark:
            raise Fault("E5")
        numbers.append(body[at + 4])
        count = body[at + 7]
        lines.append(
            f"  proposal {body[at + 4]} protocol {body[at + 5]} spi {digits(body[at + 8:spi_end])} transforms {count}"
        )
        lines += show_transforms(body[spi_end:end], count)
        at = end
    if not numbers:
        raise Fault("E5")
    if len(numbers) == 1:
        if numbers[0] == 0:
            raise Fault("E5")
    elif numbers != list(range(1, len(numbers) + 1)):
        raise Fault("E5")
    return lines


def data_behind_fields(body, limit):
    data = body[4:]
    if len(data) < 1 or len(data) > limit:
        raise Fault("E8")
    return data.hex()


def show_ke(body):
    data = data_behind_fields(body, DATA_LIMIT)
    return [f"  group {number(body[0:2])} data {data}"]


def show_identity(body):
    data = data_behind_fields(body, IDENTITY_LIMIT)
    return [f"  id {body[0]} data {data}"]


def show_auth(body):
    data = data_behind_fields(body, DATA_LIMIT)
    return [f"  method {body[0]} data {data}"]


def show_nonce(body):
    if len(body) < NONCE_LEAST or len(body) > NONCE_LIMIT:
        raise Fault("E7")
    return [f"  nonce {body.hex()}"]


def show_notify(body):
    if len(body) < 4:
        raise Fault("E8")
    spi_end = 4 + body[1]
    if spi_end > len(body):
        raise Fault("E8")
    return [
        f"  notify {number(body[2:4])} protocol {body[0]} spi {digits(body[4:spi_end])} data {digits(body[spi_end:])}"
    ]


def show_delete(body):
    if len(body) < 4:
        raise Fault("E8")
    protocol, size, count = body[0], body[1], number(body[2:4])
    if protocol == 1:
        if size != 0 or count != 0:
            raise Fault("E8")
    elif protocol in (2, 3):
        if size != 4:
            raise Fault("E8")
    else:
        raise Fault("E8")
    if len(body) != 4 + size * count:
        raise Fault("E8")
    spis = [body[at:at + 4].hex() for at in range(4, len(body), 4)]
    return [f"  delete protocol {protocol} spis {' '.join(spis) or '-'}"]


def address(octets):
    if len(octets) == 4:
        return ".".join(str(octet) for octet in octets)
    return ":".join(octets[at:at + 2].hex() for at in range(0, 16, 2))


def show_selectors(body):
    if len(body) < 4:
        raise Fault("E6")
    count = body[0]
    if count < 1 or count > SELECTOR_LIMIT:
        raise Fault("E6")
    lines = []
    at = 4
    for _ in range(count):
        if at + 8 > len(body):
            raise Fault("E6")
        form = (body[at], number(body[at + 2:at + 4]))
        if form == (7, 16):
            size = 4
        elif form == (8, 40):
            size = 16
        else:
            raise Fault("E6")
        end = at + 8 + 2 * size
        if end > len(body):
            raise Fault("E6")
        first_port, last_port = number(body[at + 4:at + 6]), number(body[at + 6:at + 8])
        first, last = body[at + 8:at + 8 + size], body[at + 8 + size:end]
        if first_port > last_port:
            raise Fault("E6")
        if number(first) > number(last):
            raise Fault("E6")
        lines.append(
            f"  selector protocol {body[at + 1]} ports {first_port}-{last_port}"
            f" addresses {address(first)}-{address(last)}"
        )
        at = end
    if at != len(body):
        raise Fault("E6")
    return lines


def show_other(body):
    return [f"  data {digits(body)}"]


SHOWN_BY = {
    SA: show_sa,
    KE: show_ke,
    IDI: show_identity,
    IDR: show_identity,
    AUTH: show_auth,
    NONCE: show_nonce,
    NOTIFY: show_notify,
    DELETE: show_delete,
    TSI: show_selectors,
    TSR: show_selectors,
}


def show_chain(message):
    lines = []
    kind = message[16]
    at = HEADER_LENGTH
    while kind != 0:
        if at + 4 > len(message):
            raise Refused(f"E4 at {at}")
        following = message[at]
        length = number(message[at + 2:at + 4])
        end = at + length
        if length < 4 or end > len(message):
            raise Refused(f"E4 at {at}")
        body = message[at + 4:end]
        lines.append(f"payload {kind} at {at} length {length}")
        if kind == SK:
            if end != len(message):
                raise Refused(f"E4 at {at}")
            # Its next-payload octet names what is sealed inside, so the chain ends here.
            return lines + [f"  sealed first {following} octets {len(body)}"]
        try:
            lines += SHOWN_BY.get(kind, show_other)(body)
        except Fault as fault:
            raise Refused(f"{fault} at {at}")
        kind = following
        at = end
    if at != len(message):
        raise Refused(f"E4 at {at}")
    return lines


def show(text):
    """The printed octets and the status."""
    try:
        if len(text) > FILE_LIMIT:
            raise Refused("file")
        message = octets_of_text(text)
        check_header(message)
        lines = show_header(message) + show_chain(message)
    except Refused as refusal:
        return f"refused {refusal}\n".encode(), 1
    return "".join(line + "\n" for line in lines).encode(), 0


def answer(text):
    return show(text)


if __name__ == "__main__":
    with open(sys.argv[1], "rb") as file:
        printed, status = show(file.read())
    sys.stdout.buffer.write(printed)
    sys.exit(status)
