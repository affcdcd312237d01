"""Two gateways come to an IKE SA, step by step. One datagram comes damaged first.

    SUKPERIN_LIB=PREFIX/lib PYTHONPATH=bindings/python python3 bindings/python/examples/exchange.py
"""

from sukperin import Counted, Entry, Gateway, Refusal, Reply, Request, Sealed

SECRET = b"a long secret of both ends"


def main() -> None:
    left = Gateway(own="left.example", peer="right.example", psk=SECRET, policy=[Entry("10.0.0.0/24", "10.1.0.0/24")])
    right = Gateway(own="right.example", peer="left.example", psk=SECRET, policy=[Entry("10.1.0.0/24", "10.0.0.0/24")])

    first = left.start()
    print(f"IKE_SA_INIT request, {len(first.message)} octets")
    answer = right.ike(first.message)
    assert isinstance(answer, Reply)
    print(f"its answer, {len(answer.message)} octets")
    proof = left.ike(answer.message)
    assert isinstance(proof, Request)
    print(f"IKE_AUTH request, {len(proof.message)} octets")

    damaged = bytearray(proof.message)
    damaged[40] ^= 1
    try:
        right.ike(bytes(damaged))
    except Refusal as refusal:
        print(f"damaged: {refusal}")

    accepted = right.ike(proof.message)
    assert isinstance(accepted, Reply)
    counted = left.ike(accepted.message)
    assert isinstance(counted, Counted)
    print(f"IKE SA {counted.ike} with child {counted.child}")
    for child in left.children():
        print(f"child {child.serial}: SPI in {child.spi_in:08x}, out {child.spi_out:08x}, to {child.remotes[0].start}")

    packet = bytes.fromhex("4500001400000000400100000a0000010a010001")
    sealed = left.outward(packet)
    assert isinstance(sealed, Sealed)
    print(f"sealed as number {sealed.number}: {sealed.packet.hex()}")
    print(right.esp(sealed.packet))
    try:
        right.esp(sealed.packet)
    except Refusal as refusal:
        print(f"again: {refusal}")


if __name__ == "__main__":
    main()
