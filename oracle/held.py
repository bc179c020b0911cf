#!/usr/bin/env python3
"""The recorded held states and the port's program `held`.

held.py stdin             the program's script, as crates/held/stdin has it: the descriptions of
                          recorded/held.txt and recorded/digest.txt, the networks with a return line
                          of recorded/return.script, the stops of stops.py and return_stops.py, and
                          recorded runs cut in parts
held.py stdout            its answers, as crates/held/stdout has them: the Rust's recorded lines, a
                          digest of the Rust's recorded lines, recorded/return.answers, what the
                          papers say, and for the cut runs the Rust's recorded state after as many
                          ticks
held.py compare PROGRAM   runs the program on every description of recorded/digest.txt and compares
                          its lines with the Rust's, state lines by their digests
"""
import os
import subprocess
import sys

import return_stops
import stops

HERE = os.path.dirname(os.path.abspath(__file__))
POLICIES = {"held": 0, "grown": 1, "timed": 2}


def recorded(name):
    with open(os.path.join(HERE, "recorded", name)) as f:
        return f.read()


def cases(name):
    """Of each recorded case: its name, its description, the Rust's lines."""
    for case in recorded(name).strip("\n").split("\n\n"):
        lines = case.split("\n")
        yield lines[0][len("case "):], dict(l.split("=", 1) for l in lines[1:12]), lines[12:]


def returns():
    """Of each recorded network with a return line: its name, its line of the script, the Rust's lines. A network that is asked for its
    digest alone has that line."""
    script = recorded("return.script").splitlines()
    answers = recorded("return.answers").splitlines()
    for comment, asked in zip(script[::2], script[1::2]):
        end = answers.index("") if asked[0] == "H" else 1
        yield comment[len("# "):], asked, answers[:end]
        answers = answers[end + (asked[0] == "H"):]


def word(n):
    return f"{int(n):016x}"


def distribution(text):
    kind, *values = text.split(":")
    return [word(kind == "uniform")] + (values + [word(0)])[:2]


def policy(text):
    kind, *values = text.split(":")
    first, most, gap = {
        "held": lambda w: (w, 0, word(0)),
        "grown": lambda f, m: (f, m, word(0)),
        "timed": lambda m, g: (0, m, g),
    }[kind](*values)
    return [word(POLICIES[kind]), word(first), word(most), gap]


def bits(text):
    """The network's 16: one value in every place, or the first 16 of several, and 0 in the places after them."""
    values = text.split(",")
    return [word(n) for n in (values * 16 if len(values) == 1 else values + [0] * 16)[:16]]


def values(d):
    """A line's own: delay, rate, loss and limit."""
    return [d["delay"], d["rate"], d["loss"], "-" * 16 if d["limit"] == "none" else word(d["limit"])]


def back(d):
    """Whether there is a return line, and its values."""
    return [word(1), *values(d["back"])] if "back" in d else [word(0)] * 5


def line(d, letter="H"):
    """A description as a line of the program's input. A return line is no part of a description's text: it is the entry `back`."""
    fields = [*values(d), *bits(d["bits"]), word(d["senders"])]
    fields += distribution(d["on"]) + distribution(d["off"]) + policy(d["policy"]) + back(d)
    return letter + " " + " ".join(fields + [word(d["seed"]), word(d["ticks"])])


def digest(text):
    h = 0xCBF29CE484222325
    for b in text.encode():
        h = (h ^ b) * 0x100000001B3 % 2**64
    return f"{h:016x}"


# ---- runs that join (document 02, K11)

# cut at every place, with the state's line after each
SHORT = ["example", "stop-8-switched-on", "stop-8-switched-off", "senders-0", "two-sizes"]
# cut at some places, with the digest of that line
LONG = ["rings-wrap", "stop-12", "stop-13", "sizes-rings-wrap"]
# with a return line, cut at every place
RETURN = ["return-worked"]


class Run:
    """A recorded run, of a line of the program's input: what its network answers when it is run in parts."""

    def __init__(self, asked, rust):
        network, ticks = asked.rsplit(" ", 1)
        self.build = "B" + network[1:]
        self.ticks = int(ticks, 16)
        self.clocks = [l.split()[0][len("time="):] for l in rust if l.startswith("time=")]
        self.moved = len(self.clocks)
        stop, clock = next(l for l in rust if l.startswith("stop=")).split()
        self.stop = stop[len("stop="):]
        self.clocks.append(clock[len("clock="):])
        self.states = [l for l in rust if l.startswith(("state ", "digest "))]

    def places(self):
        """Where it is cut: at its ends, about the tick that does not move, in the middle."""
        near = [0, 1, self.moved // 2, self.moved - 1, self.moved, self.moved + 1, self.ticks - 1, self.ticks]
        return sorted({m for m in near if 0 <= m <= self.ticks})

    def parts(self, look, parts):
        """The commands for a run in these parts from the built state, each a letter and a count, and
        the answers: those of the parts, and the state, which `look` asks for."""
        commands, answers, done = ["Z"], [], 0
        for letter, count in parts:
            more = min(count, self.moved - done)
            done += more
            commands.append(stops.command(letter, count))
            words = {"R": "run", "U": "ticks"}
            answers.append(f"{words[letter]} {more} {self.stop if more < count else 0} {self.clocks[done]}")
        return commands + [look], answers + [self.states[done]]


def joins():
    """Of each of those runs: what it is, the commands that run it whole and cut, the answers."""
    for file, look, names in [("held.txt", "A", SHORT), ("digest.txt", "X", LONG)]:
        for name, description, rust in cases(file):
            if name in names:
                yield f"whole and cut: {name}", *cut(Run(line(description), rust), look, file == "held.txt")
    for name, asked, rust in returns():
        if name in RETURN:
            yield f"whole and cut: {name}", *cut(Run(asked, rust), "A", True)


def cut(run, look, everywhere):
    ways = [[("R", run.ticks)]]
    ways += [[("R", m), ("R", run.ticks - m)] for m in (range(run.ticks + 1) if everywhere else run.places())]
    # single ticks and then a run; and eight parts
    ways.append([("U", run.moved // 2), ("R", run.ticks - run.moved // 2)])
    ways.append([("R", run.ticks * k // 8 - run.ticks * (k - 1) // 8) for k in range(1, 9)])
    commands, answers = [run.build, "K"], ["build 0"]
    for way in ways:
        asked, answered = run.parts(look, way)
        commands += asked
        answers += answered
    return commands, answers


def compare(program):
    same = 0
    differ = []
    for name, description, rust in cases("digest.txt"):
        done = subprocess.run([program], input=(line(description) + "\n").encode(), stdout=subprocess.PIPE, check=True)
        lines = done.stdout.decode().strip("\n").split("\n")
        if ["digest " + digest(l) if l.startswith("state ") else l for l in lines] == rust:
            same += 1
        else:
            differ.append(name)
    print(f"{same} the same, {len(differ)} differ", *differ)
    return bool(differ)


def main():
    if sys.argv[1:] == ["stdin"]:
        for name, description, _ in cases("held.txt"):
            print("#", name)
            print(line(description))
        for name, description, _ in cases("digest.txt"):
            print("#", name)
            print(line(description, "D"))
        print(recorded("return.script"), end="")
        for name, commands, _ in [*stops.cases(), *return_stops.cases(), *joins()]:
            print("#", name)
            print("\n".join(commands))
    elif sys.argv[1:] == ["stdout"]:
        for _, _, rust in cases("held.txt"):
            print("\n".join(rust) + "\n")
        for _, _, rust in cases("digest.txt"):
            print("lines " + digest("\n".join(rust) + "\n"))
        print(recorded("return.answers"), end="")
        for _, _, answers in [*stops.cases(), *return_stops.cases(), *joins()]:
            print("\n".join(answers))
    elif len(sys.argv) == 3 and sys.argv[1] == "compare":
        sys.exit(compare(sys.argv[2]))
    else:
        sys.exit(__doc__)


if __name__ == "__main__":
    main()
