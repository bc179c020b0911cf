#!/usr/bin/env python3
"""The unpublished lines of crates/vectors/stdout: draws and units worked out from document 01's formulas.

A second writing of the formulas in another language. Its output is no published vector.
"""
import struct

WORD = (1 << 64) - 1


def rotl(x, k):
    return ((x << k) | (x >> (64 - k))) & WORD


def xoshiro(words):
    """The output of xoshiro256++, and the words after it."""
    a, b, c, d = words
    output = (rotl((a + d) & WORD, 23) + a) & WORD
    shifted = (b << 17) & WORD
    c ^= a
    d ^= b
    b ^= c
    a ^= d
    c ^= shifted
    return output, (a, b, c, rotl(d, 45))


def splitmix(x):
    x = (x + 0x9E3779B97F4A7C15) & WORD
    z = ((x ^ (x >> 30)) * 0xBF58476D1CE4E5B9) & WORD
    z = ((z ^ (z >> 27)) * 0x94D049BB133111EB) & WORD
    return z ^ (z >> 31), x


def from_seed(seed):
    words = []
    for _ in range(4):
        word, seed = splitmix(seed)
        words.append(word)
    return tuple(words)


def from_words(*words):
    """Four zero words are replaced by those of seed 0 (document 02, K5)."""
    return words if any(words) else from_seed(0)


def child(words):
    made = []
    for _ in range(4):
        output, words = xoshiro(words)
        made.append(output)
    return from_words(*made), words


def sample(output):
    return (output // 4096) / 2.0**52


def draw(kind, words):
    if kind[0] == "always":
        return kind[1], words
    output, words = xoshiro(words)
    low, high = kind[1:]
    return sample(output) * (high - low) + low, words


def positive(kind, words):
    for _ in range(8):
        value, words = draw(kind, words)
        if value > 0.0:
            return [0, value], words
    return [8], words


def show(value):
    if isinstance(value, float):
        print("%016x" % struct.unpack("<Q", struct.pack("<d", value)))
    else:
        print(value)


def show_all(values):
    for value in values:
        show(value)


def main():
    print("child of seed 1, then its parent")
    made, parent = child(from_seed(1))
    show_all(made + parent)
    print("given four zero words, then one word that is not zero")
    for place in range(-1, 4):
        show_all(from_words(*(int(place == i) for i in range(4))))
    print("outputs from four zero words")
    words = from_words(0, 0, 0, 0)
    for _ in range(10):
        output, words = xoshiro(words)
        show(output)
    print("samples")
    show_all(sample(output) for output in (0, 4095, 4096, 41943041, WORD))
    smallest = 5e-324
    for title, kind, words in (
        ("uniform 3..4 from the words 1, 2, 3, 4", ("uniform", 3.0, 4.0), (1, 2, 3, 4)),
        ("uniform 0..2^-1074 from the words 0, 0, 0, 2^40: drawn again", ("uniform", 0.0, smallest), (0, 0, 0, 1 << 40)),
        ("uniform 0..2^-1074 from the words 0, 0, 0, 1: spent", ("uniform", 0.0, smallest), (0, 0, 0, 1)),
        ("uniform 0..2^-1074 from four zero words", ("uniform", 0.0, smallest), (0, 0, 0, 0)),
        ("always 2.5: no word drawn", ("always", 2.5), (1, 2, 3, 4)),
        ("always 0: spent, no word drawn", ("always", 0.0), (1, 2, 3, 4)),
    ):
        print(title)
        answer, after = positive(kind, from_words(*words))
        show_all(answer)
        show_all(after)
    print("Time::SIM_START, MAX, MIN; 11,200 bits at 3 bit/s; 2^53 + 1 bits at 1 bit/s; 8 bits over 0.1 s")
    largest = (2.0 - 2.0**-52) * 2.0**1023
    show_all((0.0, largest, -largest, 11200 / 3.0, float(2**53 + 1) / 1.0, 8 / 0.1))


if __name__ == "__main__":
    main()
