"""Keys whose hashes share their lowest bits, so that all but the first go to the tree of the index.

The hash of a key of one INTEGER is the number itself. That of a key of two has as its lowest 24 bits the sum of the second number and the
hash of the first, which is SipHash-1-3 with both keys 0 over a byte 1 and the eight bytes of the number (`crates/iv_key/specs/Hashes.antt`)."""

WHOLE = 2 ** 64 - 1
INITIAL = 0x736F6D6570736575, 0x646F72616E646F6D, 0x6C7967656E657261, 0x7465646279746573
# How many low bits the numbers share, and the pairs: all are 0.
SHARED, SHARED_BY_PAIRS = 20, 24


def turned(word, count):
    """A word of 64 bits, turned to the left."""
    return (word << count | word >> (64 - count)) & WHOLE


def mixed(v0, v1, v2, v3):
    """One round."""
    v0, v2 = (v0 + v1) & WHOLE, (v2 + v3) & WHOLE
    v1, v3 = turned(v1, 13) ^ v0, turned(v3, 16) ^ v2
    v0, v2 = (turned(v0, 32) + v3) & WHOLE, (v2 + v1) & WHOLE
    return v0, turned(v1, 17) ^ v2, turned(v2, 32), turned(v3, 21) ^ v0


def after_word(v0, v1, v2, v3, word):
    """The state after eight bytes more."""
    v0, v1, v2, v3 = mixed(v0, v1, v2, v3 ^ word)
    return v0 ^ word, v1, v2, v3


def sip(text):
    """The hash of some bytes."""
    state, whole = INITIAL, len(text) // 8 * 8
    for place in range(0, whole, 8):
        state = after_word(*state, int.from_bytes(text[place:place + 8], 'little'))
    state = after_word(*state, int.from_bytes(text[whole:], 'little') | (len(text) & 255) << 56)
    v0, v1, v2, v3 = state
    v0, v1, v2, v3 = mixed(*mixed(*mixed(v0, v1, v2 ^ 255, v3)))
    return v0 ^ v1 ^ v2 ^ v3


def of_first(number):
    """The hash of a key's first number, to which the second is added."""
    return sip(b'\1' + (number & WHOLE).to_bytes(8, 'little'))


def keys(count):
    """So many numbers from 1 on whose hashes share their low bits."""
    return [number << SHARED for number in range(1, count + 1)]


def pairs(count):
    """So many pairs of numbers whose hashes share their low bits."""
    return [(number, -of_first(number) % 2 ** SHARED_BY_PAIRS) for number in range(1, count + 1)]
