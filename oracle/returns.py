#!/usr/bin/env python3
"""Networks with a return line (document 02, K4). No text has one: each is a line of the script that the oracle and the port's program `held` both read.

returns.py record FOLDER                  makes the recorded sample: return.script and return.answers
returns.py compare HELD NETWORKS [SEED]   compares HELD, the port's program, with the Rust on so many drawn networks: the records and held states of every
                                          tick. Prints each difference, then in how many networks each mark and stop was met, and last
                                          `N same, M different`
"""
import collections
import pathlib
import subprocess
import sys

sys.dont_write_bytecode = True
import held
import texts

record = texts.record
compare = texts.program("compare")
MARKS = "EDTSFLPQNCOI"
# Of a run with more lines than these the digest of all lines is compared.
LONG = 2000


def with_return(text, delay=1.0, rate=8.0, loss=0.0, limit="none"):
    """A described network with a return line: the lines of the description by their names, and `back`."""
    back = dict(delay=delay, rate=rate, loss=loss, limit=limit)
    return compare.fields(text) | {"back": {name: record.shown(value) for name, value in back.items()}}


# ---- drawn networks

def network(draws, number):
    """Of ten networks five are busy on both lines, four over wide ranges, and one meets 12 or 13 on one of its lines."""
    if number % 10 == 9:
        return stopping(draws, 12 + number // 10 % 2, number // 20 % 2)
    given = wide(draws, number) if number % 2 else busy(draws, number)
    return out_of_range(draws, given) if draws.below(16) == 0 else given


def wide(draws, number):
    """A network of `compare`, and a return line of the same kind."""
    text = compare.network(draws, number)
    sizes = [int(n) for n in compare.fields(text)["bits"].split(",")]
    bits, other = draws.pick(*sizes), draws.pick(*sizes)
    return with_return(text, **compare.line(draws, compare.pace(draws, bits), bits, other))


def busy(draws, number):
    """A network whose lines both have some packets of each round trip waiting and some on them."""
    senders = draws.pick(1, 1, 2, 2, 3, 4, 7, 16)
    one = draws.pick(compare.PLAIN, 8, draws.between(100, 20000))
    sizes = record.sizes(draws, senders) if senders > 1 and number % 4 == 0 else (one,)
    trip = draws.pick(1.0, 0.125, draws.wide(-4, 3))
    most = draws.between(2, 64)

    def line():
        bits, other = draws.pick(*sizes), draws.pick(*sizes)
        return dict(
            delay=trip * draws.pick(0.0, 0.5, 1.0, draws.unit(), draws.unit(), draws.between(1, 20)),
            rate=min(max(max(sizes) * draws.pick(2.0, 8.0, draws.wide(0, 5)) / trip, 1.0), 2.0**50),
            loss=draws.pick(0.0, 0.0, 0.0625, 0.25, draws.unit(), draws.wide(-8, -2)),
            limit=draws.pick("none", bits, bits + other, 2 * bits + other, 6 * bits + other, 20 * bits + other, 0 if draws.below(4) == 0 else "none"),
        )

    return with_return(
        record.describe(
            **line(),
            bits=sizes,
            senders=senders,
            on=draws.pick(record.always(draws.between(2, 30) * trip), record.uniform(trip, 40 * trip)),
            off=draws.pick(record.always(trip / 2), record.always(draws.between(1, 6) * trip), record.uniform(0.0, 3 * trip)),
            policy=draws.pick(
                "held:%d" % draws.between(1, 16), "held:%d" % most, "grown:%d:%d" % (draws.between(1, most), most), record.timed(most, trip * draws.wide(0, 3))),
            seed=draws.word(),
            ticks=draws.pick(100, 200, 300, draws.between(1, 400)),
        ),
        **line(),
    )


def stopping(draws, stop, line):
    """A network with a 513th packet: waiting (12) or on the line (13), of the first line (0) or of the second (1). 16 senders send over 700
    packets in a second. That line is slow, or long; the other lets them through."""
    sizes = record.sizes(draws, 16) if draws.below(2) else (draws.pick(8, compare.PLAIN, draws.between(1, 2**24)),)
    fast = min(max(sizes) * draws.wide(10, 20), 2.0**50)
    slow = max(min(sizes) * draws.wide(-20, -4), 1.0)
    free = dict(delay=draws.pick(0.0, draws.wide(-20, -4)), rate=fast, loss=draws.pick(0.0, draws.wide(-8, -4)), limit="none")
    full = dict(
        delay=draws.pick(0.0, 1.0, draws.wide(-10, 19)) if stop == 12 else draws.pick(2.0**20, draws.wide(15, 19)),
        rate=slow if stop == 12 else fast,
        loss=draws.pick(0.0, 0.5, draws.unit()),
        limit=draws.pick("none", 513 * max(sizes), 2**50),
    )
    first, second = (full, free) if line == 0 else (free, full)
    policy = draws.pick("held:64", "held:%d" % draws.between(48, 64), "grown:%d:64" % draws.between(48, 64))
    return with_return(
        record.describe(
            **first, bits=sizes, senders=16, on=record.always(2.0**20), off=record.uniform(0.0, 1.0), policy=policy, seed=draws.word(), ticks=4000),
        **second,
    )


def out_of_range(draws, given):
    """One value that is refused: of the return line (20) or another (1 to 7), or of both."""
    edges = [
        {"delay": record.double(draws.pick(record.after(2.0**20), -record.SMALLEST, float("inf"), float("nan")))},
        {"rate": record.double(draws.pick(record.before(1.0), record.after(2.0**50), 0.0, float("nan")))},
        {"loss": record.double(draws.pick(record.after(1.0), -record.SMALLEST, float("nan")))},
        {"limit": str(draws.pick(2**50 + 1, 2**64 - 1))},
    ]
    back = given["back"]
    if draws.below(3):
        back = back | draws.pick(*edges)
    if draws.below(3) == 0:
        text = "".join("%s=%s\n" % (name, given[name]) for name in record.EXAMPLE)
        given = compare.fields(compare.out_of_range(draws, text))
    return given | {"back": back}


# ---- the recorded sample

def cases():
    """Of each network: its name, what is asked (H the lines, D their digest), and the network."""
    one = record.describe
    always, uniform, timed, tiny = record.always, record.uniform, record.timed, record.SMALLEST
    # docs/RETURN-LINE.md
    yield "return-worked", "H", with_return(one(senders=2, bits=(8, 4), limit=12, policy="held:2", ticks=14), delay=2.0, rate=4.0, loss=0.5, limit=8)
    # 0:3 is dropped full at the second line, and 0:2 lost on it.
    yield "return-one-sender", "H", with_return(one(limit="none", policy="held:4", ticks=16), delay=0.5, rate=4.0, loss=0.5, limit=8)
    yield "return-old-and-ignored", "H", with_return(
        one(delay=0.75, rate=64.0, limit="none", on=always(1.0), off=always(1.0), policy="held:2", ticks=20), delay=0.75, rate=16.0)
    yield "return-delays-0", "H", with_return(one(delay=0.0, rate=16.0, limit=16, ticks=16), delay=0.0, rate=32.0)
    yield "return-senders-0", "H", with_return(one(senders=0))
    yield "return-20", "H", with_return(one(), delay=record.after(2.0**20))
    yield "return-7-before-20", "H", with_return(one(policy="held:0"), rate=0.0)
    yield "return-all-lost", "D", with_return(one(limit="none", on=always(3.0), ticks=40), loss=1.0)
    yield "return-all-dropped", "D", with_return(one(limit="none", on=always(3.0), ticks=40), limit=0)
    yield "return-all-lost-on-the-first", "D", with_return(one(loss=1.0, on=always(3.0), ticks=40))
    yield "return-timed", "D", with_return(one(policy=timed(8, 4.25), limit="none", on=always(20.0), off=always(0.5), ticks=80), delay=0.25, rate=16.0)
    yield "return-published-size", "D", with_return(
        one(senders=3, bits=compare.PLAIN, rate=1e6, delay=0.05, limit=33600, loss=0.25, policy="grown:1:8", off=always(0.5), ticks=120),
        delay=0.025, rate=5e5, loss=0.125, limit=22400)
    yield "return-delay-2^20", "D", with_return(
        one(delay=0.5, on=always(2.0**19), off=always(2.0**19), limit=16, ticks=40), delay=2.0**20, rate=2.0**50)
    yield "return-subnormal", "D", with_return(
        one(delay=0.0, rate=2.0**50, bits=1, limit="none", on=always(tiny), off=always(3 * tiny), policy="held:1", ticks=40), delay=tiny, rate=2.0**50)
    rings = dict(senders=3, policy="grown:1:6", rate=64.0, delay=0.375, loss=0.03125, on=uniform(5.0, 9.0), off=uniform(0.0, 1.0), seed=3, ticks=3000)
    yield "return-rings-wrap", "D", with_return(one(**rings, limit=160), delay=0.25, rate=72.0, loss=0.0625, limit=64)
    yield "return-sizes-rings-wrap", "D", with_return(one(**rings, bits=(8, 4, 6), limit=60), delay=0.5, rate=48.0, loss=0.03125, limit=32)
    spent = dict(off=uniform(0.0, tiny), ticks=12)
    yield "return-stop-8-build", "D", seeded("stop=8", lambda seed: with_return(one(**spent, seed=seed)), ticks=False)
    yield "return-stop-8-tick", "D", seeded("stop=8", lambda seed: with_return(one(**spent, on=always(1.0), seed=seed)), ticks=True)
    draws = record.Draws(4)
    for stop in (12, 13):
        for line in (0, 1):
            yield "return-stop-%d-line-%d" % (stop, line), "D", stopping(draws, stop, line)
    for number in range(1, 13):
        yield "return-busy-%02d" % number, "D", busy(draws, number)
    for number in range(1, 9):
        yield "return-wide-%02d" % number, "D", wide(draws, number)


def seeded(stop, network, ticks):
    """The network with the lowest seed whose run ends in the stop, after ticks that moved or before any."""
    seed = 0
    while True:
        given = network(seed)
        lines = answered(given)
        if record.stop_of("\n".join(lines)) == stop and (len(lines) > 1) == ticks:
            return given
        seed += 1


def answered(given):
    """The Rust's lines for a network."""
    return asked([record.ORACLE, "script"], [held.line(given)]).split("\n")[:-2]


def asked(command, lines):
    """What a program answers to the lines of a script."""
    text = "".join(line + "\n" for line in lines)
    return subprocess.run(command, input=text.encode(), stdout=subprocess.PIPE, check=True).stdout.decode()


def write(folder):
    names, script = set(), []
    for name, letter, given in cases():
        assert name not in names, name
        names.add(name)
        script += ["# " + name, held.line(given, letter)]
    folder.mkdir(parents=True, exist_ok=True)
    (folder / "return.script").write_text("".join(line + "\n" for line in script))
    (folder / "return.answers").write_text(asked([record.ORACLE, "script"], script))


# ---- the comparison

def met(lines):
    """The marks and the stop of a run. 12 and 13 with their line: in the first link's turn 12 is the second line's."""
    marks = {line.split()[2][len("mark="):] for line in lines if line.startswith("time=")} & set(MARKS)
    stop = record.stop_of("\n".join(lines))
    if stop not in ("stop=12", "stop=13"):
        return marks | {stop}
    turn = next(line for line in reversed(lines) if line.startswith("state ")).split()[2][len("next="):]
    second = turn == "0" if stop == "stop=12" else turn != "0"
    return marks | {stop + (" on the second line" if second else " on the first line")}


def compared(program, networks, draws):
    same = different = 0
    reached = collections.Counter()
    for number in range(networks):
        given = network(draws, number)
        lines = answered(given)
        reached.update(met(lines))
        letter = "D" if len(lines) > LONG else "H"
        line = held.line(given, letter)
        if asked([program], [line]) == asked([record.ORACLE, "script"], [line]):
            same += 1
        else:
            different += 1
            print("network %d: %s" % (number, line))
    for name, count in sorted(reached.items()):
        print("%s: %d" % (name if name.startswith("stop=") else "mark " + name, count))
    print("%d same, %d different" % (same, different))
    return bool(different)


def main():
    if not record.ORACLE.exists():
        sys.exit("returns: build the oracle first (README.md)")
    words = sys.argv[1:]
    if len(words) == 2 and words[0] == "record":
        return write(pathlib.Path(words[1]))
    if len(words) in (3, 4) and words[0] == "compare":
        return compared(words[1], int(words[2]), record.Draws(int(words[3]) if len(words) == 4 else 11))
    sys.exit(__doc__)


if __name__ == "__main__":
    sys.exit(main())
