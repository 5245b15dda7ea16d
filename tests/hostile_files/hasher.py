"""The kit's fast hasher, by which a file could choose numbers that meet in a map if every map began as this
does."""
START = 0x243F_6A88_85A3_08D3
MULTIPLIER = 0x9E37_79B9_7F4A_7C15


def folded(state, word, length):
    """The state after a word of so many bytes, from the state before it."""
    product = (state ^ word) * (MULTIPLIER ^ 2 * length)
    return (product ^ product >> 64) & 2**64 - 1


def after(state, number):
    """The state after a number of 32 bits, which fills both halves of a word."""
    return folded(state, number * 0x1_0000_0001, 4)


def after_key(state, key, size):
    """The state after the key of a set or an outcome, a number of 8 or 4 bytes, whose last two bits do not choose
    a bucket: first its lowest byte, and then the others."""
    lowest, others = key % 256 // 4, key // 256
    word = others if size == 4 else others % 2**32 | others >> 24 << 32
    return folded(folded(state, lowest * 0x1_0101, 1), word, size - 1)


def is_early(state, buckets):
    """Whether a key that leads to this state goes into one of the first of 65,536 buckets."""
    return (state ^ state >> 32) & 0xFFFF < buckets
