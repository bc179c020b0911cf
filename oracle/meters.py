#!/usr/bin/env python3
"""meters.py script: a script of meter calls and flow lists, the same at every run.
meters.py answer < SCRIPT: what document 01's sections "Meter" and "Stops" (16, 17, 18) answer to a script.

A second writing of the definitions in another language; crates/meter_scripts has the format.
"""
import random
import struct
import sys

MAX = (2.0 - 2.0**-52) * 2.0**1023
ABSENT = "-" * 16


def bits_of(x):
    return struct.unpack("<Q", struct.pack("<d", x))[0]


def word(value):
    if value is None:
        return ABSENT
    if isinstance(value, float):
        return "7ff8000000000000" if value != value else "%016x" % bits_of(value)
    return "%016x" % value


def double(digits):
    return struct.unpack("<d", struct.pack("<Q", int(digits, 16)))[0]


def in_range(low, high, x):
    return low <= x <= high


class Meter:
    def __init__(self, total=0.0, start=None, bits=0, records=0, rtt_sum=0.0):
        self.total, self.start, self.bits, self.records, self.rtt_sum = total, start, bits, records, rtt_sum

    def held(self):
        return [self.total, self.start, self.bits, self.records, self.rtt_sum]

    def fit(self):
        return (
            self.records <= 2**24
            and self.bits <= 2**24 * self.records
            and (self.start is None or in_range(0.0, 2.0**41, self.start))
            and in_range(0.0, MAX, self.total)
            and in_range(0.0, self.records * 2.0**41, self.rtt_sum)
        )

    def ready(self, time):
        return self.fit() and in_range(0.0, 2.0**41, time) and (self.start is None or self.start <= time)

    def switch(self, on, time):
        if not self.ready(time) or on == (self.start is not None):
            return 18
        if on:
            self.start = time
        else:
            self.total, self.start = self.total + (time - self.start), None
        return 0

    def record(self, bits, rtt, time):
        if not (self.ready(time) and in_range(0.0, 2.0**41, rtt) and 1 <= bits <= 2**24 and self.records < 2**24):
            return 18
        self.rtt_sum = rtt if self.records == 0 else self.rtt_sum + rtt
        self.bits += bits
        self.records += 1
        return 0

    def read(self, time):
        enabled = self.total + (0.0 if self.start is None else time - self.start)
        if enabled == 0.0:
            return [16]
        if not self.ready(time):
            return [18]
        return [0, self.bits / enabled, None if self.records == 0 else self.rtt_sum / self.records]


def mean(flows):
    fit = all(in_range(0.0, 2.0**60, rate) and (rtt is None or in_range(0.0, 2.0**60, rtt)) for rate, rtt in flows)
    if not flows or len(flows) > 65536 or not fit:
        return [17]

    def average(values):
        total = values[0]
        for value in values[1:]:
            total += value
        return total / len(values)

    known = [rtt for _, rtt in flows if rtt is not None]
    return [0, average([rate for rate, _ in flows]), average(known) if known else None]


def answer(lines):
    meter, flows = Meter(), []
    for line in lines:
        words = line.split()
        if not words or words[0] not in "NHEDRQFGM":
            continue
        letter, values = words[0], [None if w == ABSENT else w for w in words[1:]]
        if letter == "N":
            meter = Meter()
        elif letter == "H":
            start = None if values[1] is None else double(values[1])
            meter = Meter(double(values[0]), start, int(values[2], 16), int(values[3], 16), double(values[4]))
        elif letter in "ED":
            number = meter.switch(letter == "E", double(values[0]))
            print(letter, number, *map(word, meter.held()))
        elif letter == "R":
            number = meter.record(int(values[0], 16), double(values[1]), double(values[2]))
            print(letter, number, *map(word, meter.held()))
        elif letter == "Q":
            got = meter.read(double(values[0]))
            print(letter, got[0], *map(word, got[1:]))
        elif letter in "FG":
            count = int(values[2], 16) if letter == "G" else 1
            flows += [(double(values[0]), None if values[1] is None else double(values[1]))] * count
        else:
            got = mean(flows)
            flows = []
            print(letter, got[0], *map(word, got[1:]))


def after(x):
    """The next double above."""
    return struct.unpack("<d", struct.pack("<Q", bits_of(x) + 1))[0]


def script():
    def put(letter, *values):
        print(letter, *map(word, values))

    def title(text):
        print("#", text)

    top, nan, inf = 2.0**41, float("nan"), float("inf")
    outside = (-5e-324, -1.0, after(top), inf, -inf, nan)
    title("on, record, off, on, read")
    put("N")
    put("Q", 1.0)
    put("E", 1.0)
    put("Q", 1.0)
    put("R", 8, 0.5, 2.0)
    put("Q", 3.0)
    put("R", 16, 0.25, 3.5)
    put("D", 4.0)
    put("Q", 9.0)
    put("E", 6.0)
    put("Q", 6.0)
    put("R", 11200, 1.0, 7.0)
    put("Q", 8.5)
    title("switched to the state it has")
    put("E", 9.0)
    put("D", 9.0)
    put("D", 9.0)
    title("a record while off is taken")
    put("R", 1, 0.0, 0.0)
    title("time before its start: a switch off, a record, a read")
    put("N")
    put("E", 2.0)
    for letter, values in (("D", (1.0,)), ("R", (8, 0.5, 1.0)), ("Q", (1.0,))):
        put(letter, *values)
    title("the state it has, and then the other: new, off, and on since 2; at 1, 2 and 3")
    for first, same, other in ((("N",), "D", "E"), (("H", 1.0, None, 8, 1, 0.5), "D", "E"), (("H", 1.0, 2.0, 8, 1, 0.5), "E", "D")):
        for time in (1.0, 2.0, 3.0):
            put(*first)
            put(same, time)
            put(other, time)
    title("time out of range")
    for time in outside + (top, -0.0, 0.0):
        for first in (("N",), ("H", 1.0, None, 8, 1, 0.5), ("H", 1.0, 0.0, 8, 1, 0.5)):
            put(*first)
            for letter, values in (("Q", (time,)), ("R", (8, 0.5, time)), ("E", (time,)), ("D", (time,))):
                put(letter, *values)
    title("RTT out of range, and in it")
    put("N")
    for rtt in outside + (top, -0.0, 0.0):
        put("R", 8, rtt, 1.0)
    title("bits out of range, and in it")
    for bits in (0, 1, 2**24, 2**24 + 1, 2**64 - 1):
        put("R", bits, 0.5, 1.0)
    title("a record into 2^24 - 1 and 2^24 held")
    put("H", 1.0, None, 2**24 - 1, 2**24 - 1, 1.0)
    put("R", 8, 0.5, 1.0)
    put("R", 8, 0.5, 1.0)
    put("Q", 1.0)
    title("each clause of a held meter by itself, at its end and outside")
    hands = (
        (1.0, None, 2**24, 2**24, 1.0),
        (1.0, None, 2**24, 2**24 + 1, 1.0),
        (1.0, None, 2**25, 2, 1.0),
        (1.0, None, 2**25 + 1, 2, 1.0),
        (1.0, None, 1, 0, 0.0),
        (1.0, top, 8, 1, 0.5),
        (1.0, 0.0, 8, 1, 0.5),
        (1.0, -0.0, 8, 1, 0.5),
    )
    hands += tuple((1.0, start, 8, 1, 0.5) for start in outside)
    hands += tuple((total, None, 8, 1, 0.5) for total in (MAX, inf, -inf, nan, -5e-324, -0.0, 5e-324))
    hands += tuple((1.0, None, 8, 1, rtt_sum) for rtt_sum in outside + (top,))
    hands += ((1.0, None, 0, 0, 5e-324), (1.0, None, 0, 0, -0.0), (1.0, None, 8, 3, 3 * top), (1.0, None, 8, 3, after(3 * top)))
    for hand in hands:
        for letter, values in (("E", (top,)), ("D", (top,)), ("R", (8, 0.5, top)), ("Q", (top,))):
            put("H", *hand)
            put(letter, *values)
    title("two causes at once: the lowest number")
    for hand, letter, values in (
        ((0.0, None, 1, 0, 0.0), "Q", (1.0,)),
        ((0.0, None, 8, 2**24 + 1, 0.0), "Q", (nan,)),
        ((1.0, 2.0, 8, 1, 0.5), "Q", (1.0,)),
        ((0.0, 2.0, 8, 1, 0.5), "Q", (1.0,)),
        ((0.0, 2.0, 8, 1, 9e99), "Q", (2.0,)),
        ((0.0, 3e30, 8, 1, 0.5), "Q", (3e30,)),
        ((1.0, 2.0, 8, 1, 0.5), "R", (0, nan, 1.0)),
        ((1.0, None, 8, 2**24, 0.5), "R", (0, 0.5, 1.0)),
        ((1.0, None, 8, 2**24, 9e99), "D", (-1.0,)),
    ):
        put("H", *hand)
        put(letter, *values)
    title("a single RTT of -0.0 stays -0.0")
    put("N")
    put("E", 0.0)
    put("R", 8, -0.0, 0.0)
    put("Q", 1.0)
    put("R", 8, -0.0, 0.0)
    put("R", 8, 0.0, 0.0)
    put("Q", 1.0)
    title("a subnormal enabled time, and an infinite rate")
    put("N")
    put("E", 0.0)
    put("R", 2**24, 0.5, 1.0)
    put("Q", 5e-324)
    put("Q", 2.0**-1000)
    put("D", 5e-324)
    put("Q", 0.0)
    title("sums that round")
    put("N")
    put("E", 0.1)
    for k in range(1, 12):
        put("R", 11200, 0.1 * k, 0.1 * k + 1.0)
        put("Q", 0.1 * k + 2.0)
    title("flow lists: empty, one, several, with and without RTT")
    put("M")
    for flows in (
        ((1.0, None),),
        ((1.0, 2.0),),
        ((-0.0, -0.0),),
        ((0.1, 0.2), (0.2, None), (0.3, 0.7)),
        ((3.0, None), (4.0, None)),
        ((1e18, 1e-300), (1e-300, 1e18), (0.1, 0.1), (2.0**60, 2.0**60)),
        tuple((0.1 * k, None if k % 3 else 1.0 / k) for k in range(1, 40)),
    ):
        for flow in flows:
            put("F", *flow)
        put("M")
    title("each bound of a member and the next double")
    for value in (2.0**60, after(2.0**60), 0.0, -0.0, -5e-324, inf, -inf, nan):
        put("F", value, None)
        put("M")
        put("F", 1.0, value)
        put("M")
        put("F", 1.0, 1.0)
        put("F", value, 1.0)
        put("F", 1.0, 1.0)
        put("M")
    title("65,536 and 65,537 flows")
    for count in (65535, 65536):
        put("G", 0.1, 0.3, count)
        put("F", 2.0, None)
        put("M")
    title("random calls")
    draw = random.Random(1)
    for _ in range(12):
        put("N")
        time, on = 0.0, False
        for _ in range(12):
            time += draw.random() * 2.0 ** draw.randrange(-8, 20)
            kind = draw.randrange(4)
            if kind == 0:
                on = not on
                put("E" if on else "D", time)
            elif kind == 3:
                put("Q", time)
            else:
                put("R", draw.randrange(1, 2**24 + 1), draw.random() * 2.0 ** draw.randrange(-20, 41), time)
        put("Q", time + 1.0)


if sys.argv[1:] == ["script"]:
    script()
elif sys.argv[1:] == ["answer"]:
    answer(sys.stdin)
else:
    sys.exit(__doc__)
