"""The two checks: of a block and of a packet."""

OFFSETS = (0x0FC, 0x198, 0x168, 0x1B4)  # letters A, B, C, D


def remainder(dividend, bits, generator, degree):
    """What is left of a polynomial of so many bits."""
    for i in range(bits - 1, degree - 1, -1):
        if dividend >> i & 1:
            dividend ^= generator << (i - degree)
    return dividend


# information times x^10, divided by x^10+x^8+x^7+x^5+x^4+x^3+1, for each information
CHECKS = [remainder(info << 10, 26, 0b10110111001, 10) for info in range(1 << 16)]


def block(info, letter):
    """The 26 bits of a block: information, then check plus offset."""
    return info << 10 | CHECKS[info] ^ OFFSETS[letter]


def packet_check(data):
    """CRC-16 CCITT-FALSE: x^16+x^12+x^5+1 from 0xFFFF, not reflected, nothing added."""
    rest = 0xFFFF
    for byte in data:
        rest = remainder((rest ^ byte << 8) << 8, 24, 0x11021, 16)
    return rest
