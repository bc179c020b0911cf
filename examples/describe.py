#!/usr/bin/env python3
"""Write a description for remyline from plain numbers.

Times are in seconds, rates in bit/s, amounts in bits. A time of --on and --off is one number (always
that long) or two joined by a colon (drawn evenly between them). The ranges are remyline's to test:
its answer `stop=1` to `stop=7` says which value it refuses, and `stop=15` that --bits has neither one
number nor one for each gateway.

    describe.py --delay 0.08 --rate 500000 --policy held:4 > mine.txt
"""
import argparse
import struct


def double(text):
    """The bits of a decimal number as 16 hexadecimal digits."""
    return struct.pack(">d", float(text)).hex()


def times(text):
    parts = [double(p) for p in text.split(":")]
    if len(parts) > 2:
        raise ValueError(text)
    return ("always:" if len(parts) == 1 else "uniform:") + ":".join(parts)


def bits(text):
    return ",".join(str(int(v)) for v in text.split(","))


def limit(text):
    return text if text == "none" else str(int(text))


def policy(text):
    kind, *values = text.split(":")
    forms = {"held": [int], "grown": [int, int], "timed": [int, double]}
    if kind not in forms or len(values) != len(forms[kind]):
        raise ValueError(text)
    return ":".join([kind] + [str(form(v)) for form, v in zip(forms[kind], values)])


KEYS = [
    ("delay", double, "0.05", "seconds from a packet's start to its return to the sender"),
    ("rate", double, "1000000", "bit/s of the line"),
    ("loss", double, "0", "share of packets lost on the line, 0 to 1"),
    ("limit", limit, "none", "most bits that may wait for the line, or none"),
    ("bits", bits, "11200", "bits of a packet, or one number for each gateway, joined by commas"),
    ("senders", int, "1", "number of gateways, at most 16"),
    ("on", times, "10", "how long a gateway is on"),
    ("off", times, "1", "how long a gateway is off"),
    ("policy", policy, "held:8", "held:WINDOW, grown:FIRST:MOST or timed:MOST:SECONDS"),
    ("seed", int, "1", "seed of all draws"),
    ("ticks", int, "1000", "most ticks, at most 65536"),
]


def main():
    parser = argparse.ArgumentParser(description=__doc__, formatter_class=argparse.RawDescriptionHelpFormatter)
    for key, form, usual, words in KEYS:
        parser.add_argument("--" + key, type=form, default=usual, help=f"{words} (if not given: {usual})")
    given = vars(parser.parse_args())
    print("\n".join(f"{key}={given[key]}" for key, *_ in KEYS))


if __name__ == "__main__":
    main()
