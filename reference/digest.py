"""Digests of bytes, and 64-bit words."""
import struct

PRIME = 2**48 - 59
WORD = 2**64


def signed(word):
    """The number in two's complement that a word is."""
    return (word + WORD // 2) % WORD - WORD // 2


def unsigned(number):
    return number % WORD


def packed(numbers):
    """Each number as the eight bytes of its word, the most significant first."""
    return struct.pack(">%dQ" % len(numbers), *map(unsigned, numbers))


def digest(data):
    """The number that the bytes are, the first the most significant one, modulo a prime."""
    return int.from_bytes(data, "big") % PRIME
