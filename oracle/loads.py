#!/usr/bin/env python3
"""The lists of descriptions that the program `loads` and `oracle loads` read so many times over.

loads.py stdin    a list with each form of a line and each line made wrong, to be read twice, as crates/loads/stdin has it
loads.py stdout   the oracle's answer to it, as crates/loads/stdout has it
"""
import subprocess
import sys

sys.dont_write_bytecode = True
import texts

record = texts.record


def field(number):
    return "%016x" % number


def listed(descriptions, rounds):
    """A list of texts, to be read so many times over."""
    return "L %s\n" % field(rounds) + "".join("T %s\n%s" % (field(len(text)), text) for text in descriptions)


def wrong(text, number):
    """The text with the last byte of a line made one that cannot stand there."""
    lines = text.splitlines()
    lines[number - 1] = lines[number - 1][:-1] + "x"
    return "".join(line + "\n" for line in lines)


def swept(**parts):
    """The descriptions of a sweep: 5 limits, 8 windows and 5 seeds. With their heads they have less than 65,536 bytes."""
    return [record.describe(**dict(parts, limit=2 * limit * parts["bits"], policy=record.timed(8 * window, 0.5), seed=seed))
            for limit in range(1, 6) for window in range(1, 9) for seed in range(1, 6)]


def forms():
    """Each form of a line, and each line made wrong."""
    for limit in ("none", 0, 2**64 - 1):
        yield record.describe(limit=limit)
    for times in (record.always(1.0), record.uniform(0.0, 2.0)):
        yield record.describe(on=times)
        yield record.describe(off=times)
    for policy in ("held:3", "grown:1:64", record.timed(64, 0.5)):
        yield record.describe(policy=policy)
    for number in range(1, 12):
        yield wrong(record.describe(), number)
    # one value for all, which fills all 16 places; as many as senders, of which the first 16 count
    for senders, bits in ((0, 0), (5, 8), (2, (8, 4)), (16, tuple(range(1, 17))), (17, tuple(range(1, 18))), (254, (1,) * 254), (2, (2**64 - 1, 0))):
        yield record.describe(senders=senders, bits=bits)
    for senders, bits in ((0, (8, 4)), (3, (8, 4)), (2, (8, 4, 6)), (255, (1,) * 255)):
        yield record.describe(senders=senders, bits=bits)
    yield wrong(record.describe(senders=2, bits=(8, 4)), 5)


def main():
    given = listed(list(forms()), 2)
    if sys.argv[1:] == ["stdin"]:
        sys.stdout.write(given)
    elif sys.argv[1:] == ["stdout"]:
        subprocess.run([record.ORACLE, "loads"], input=given.encode(), check=True)
    else:
        sys.exit(__doc__)


if __name__ == "__main__":
    main()
