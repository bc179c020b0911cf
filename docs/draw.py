#!/usr/bin/env python3
"""Draw the first ticks of a run as SVG, from lines in the form that remyline prints.

    remyline < description.txt | draw.py --ticks 7 > picture.svg
    remyline < description.txt | draw.py --ticks 12 --sizes description.txt > picture.svg
    return_line | draw.py --ticks 14 --bits 8,4 --rates 8,4 > picture.svg

A column is a tick: its clock, its part and its mark. Below are the packets that wait and those on
the line after it, the first to go at the top, and the packet that ended in it. With a return line, which
no description has, there are two lines, and a record of part 2n + 2 is the second link's. With --sizes,
or --bits and --rates, a packet is drawn as long as its bits, the waiting bits are told, and for how long
a start takes its line: bits / rate.
"""
import argparse
import struct
import sys

WORDS = {"E": "switched on", "D": "switched off", "T": "timer", "S": "sent, waits", "F": "dropped full",
         "L": "lost", "P": "waits at 2", "Q": "dropped at 2", "N": "lost on 2", "C": "counted", "O": "old", "I": "ignored"}
WAITS, MOVES, GOOD, BAD, OTHER = "#fbe3a6", "#c9defa", "#c8e8c8", "#f6c3c0", "#e0e0e0"
ENDS = {"F": BAD, "L": BAD, "Q": BAD, "N": BAD, "C": GOOD, "O": OTHER, "I": OTHER}
LEAVES = "LPQNCOI"  # the marks of a packet that leaves a line
LEFT, WIDE, ROW, MOST = 92, 100, 26, 8  # label column, column, height of a packet, packets shown in a stack
LONG, SHORT, NOTE = WIDE - 28, 26, 17  # the longest packet, the shortest, height of a line of words


def fail(words):
    sys.exit("draw.py: " + words)


def line_of(part, mark):
    """The line whose link the part is: 0, or 1 for part 2n + 2. Of the other even parts, the togglers, each record has E or D."""
    if part == 0:
        return 0
    return 1 if part % 2 == 0 and mark not in "ED" else None


def part_name(part, line, lines):
    if line is not None:
        return "link" if lines == 1 else ("first link", "second link")[line]
    return f"{'toggler' if part % 2 == 0 else 'sender'} {(part - 1) // 2}"


class Sizes:
    """The packets' sizes, one for all senders or one for each, and the rate of each line."""

    def __init__(self, each, rates):
        self.each, self.rates = each, rates

    def bits(self, packet):
        return self.each[int(packet.split(":")[0]) if len(self.each) > 1 else 0]

    def seconds(self, packet, line):
        return self.bits(packet) / self.rates[line]

    def length(self, packet):
        return max(SHORT, round(LONG * self.bits(packet) / max(self.each)))


def number(digits):
    """The double that these 16 digits are the bits of."""
    return struct.unpack(">d", bytes.fromhex(digits))[0]


def described(text):
    """The sizes and the rate in a description."""
    given = dict(line.split("=", 1) for line in text.split())
    return Sizes([int(bits) for bits in given["bits"].split(",")], [number(given["rate"])])


def follow(lines, most):
    """Each record with its line, if any, and for each line the packets that wait and those on it after the record."""
    held, ticks = [([], []), ([], [])], []
    for text in lines:
        if not text.startswith("time=") or len(ticks) == most:
            break
        r = dict(field.split("=", 1) for field in text.split())
        part, mark, packet, started = int(r["part"]), r["mark"], r["packet"], r["line"]
        line = line_of(part, mark)
        if mark in LEAVES:
            if line is None or not held[line][1] or held[line][1].pop(0) != packet:
                fail(f"{packet} leaves and is not first on the line: these are not the first lines of a run")
        if mark in "SP":
            held["SP".index(mark)][0].append(packet)
        if started != "-":
            if line is None or not held[line][0] or held[line][0].pop(0) != started:
                fail(f"{started} starts and is not first of those that wait: these are not the first lines of a run")
            held[line][1].append(started)
        ticks.append((number(r["time"]), part, mark, packet, started, line, [[list(stack) for stack in both] for both in held]))
    return ticks


def rect(x, y, w, h, fill, line="none", more=""):
    return f'<rect x="{x}" y="{y}" width="{w}" height="{h}" fill="{fill}" stroke="{line}"{more}/>'


def words(x, y, text, size=13, weight="normal", anchor="middle", fill="#222"):
    return f'<text x="{x}" y="{y}" font-size="{size}" font-weight="{weight}" text-anchor="{anchor}" fill="{fill}">{text}</text>'


def box(x, y, packet, fill, sizes):
    long = sizes.length(packet) if sizes else LONG
    return rect(x + 14, y + 2, long, ROW - 4, fill, "#555", ' rx="3"') + words(x + 14 + long / 2, y + 17, packet)


def stack(x, y, packets, fill, sizes):
    shown = packets if len(packets) <= MOST else packets[: MOST - 1]
    out = [box(x, y + ROW * i, p, fill, sizes) for i, p in enumerate(shown)]
    if len(packets) > len(shown):
        out.append(words(x + WIDE / 2, y + ROW * len(shown) + 17, f"and {len(packets) - len(shown)} more", 12))
    if not packets:
        out.append(words(x + WIDE / 2, y + 17, "none", 12, fill="#888"))
    return out


def draw(ticks, sizes):
    lines = 2 if any(t[2] in "PQ" for t in ticks) else 1
    if sizes and len(sizes.rates) < lines:
        fail("there are two lines, and one rate is given")
    note = NOTE if sizes else 0  # how long a start takes the line, and the bits that wait
    top = [30, 54]  # clocks, records
    rows, y = [], 136 + note  # for each line where those that wait begin, how high they are, and the same of those on it
    for l in range(lines):
        deep = [max(1, *(min(MOST, len(t[6][l][k])) for t in ticks)) for k in (0, 1)]
        rows.append((y, ROW * deep[0] + note, y + ROW * deep[0] + note + 14, ROW * deep[1]))
        y = sum(rows[l][2:]) + (14 if lines == 1 else 24)
    ends = y
    width, height = LEFT + WIDE * len(ticks) + 6, ends + ROW + 28
    out = [f'<svg xmlns="http://www.w3.org/2000/svg" width="{width}" height="{height}" viewBox="0 0 {width} {height}" font-family="DejaVu Sans, Verdana, sans-serif">',
           rect(0, 0, width, height, "#fff"),
           words(LEFT, 19, f"The first {len(ticks)} ticks, and what waits and is on {'the' if lines == 1 else 'each'} line after each", 14, "bold", "start")]
    first = 0
    for i, t in enumerate(ticks):  # one heading over the ticks of one clock
        if i + 1 == len(ticks) or ticks[i + 1][0] != t[0]:
            x, w = LEFT + WIDE * first, WIDE * (i + 1 - first)
            out += [rect(x + 1, top[0], w - 2, 22, "#444"), words(x + w / 2, top[0] + 16, f"{t[0]:.6g} s", 13, "bold", fill="#fff")]
            first = i + 1
    labels = [(top[1], 76 + note, "record")]
    for l, (waits, high, moves, deep) in enumerate(rows):
        names = ("waiting", "on the line") if lines == 1 else (f"waiting {l + 1}", f"on line {l + 1}")
        labels += [(waits, high, names[0]), (moves, deep, names[1])]
    for y, h, label in labels + [(ends, ROW, "ended")]:
        out += [rect(LEFT, y, WIDE * len(ticks), h, "#f7f7f7"), words(LEFT - 8, y + 17, label, 13, "bold", "end")]
    out.append(words(LEFT - 8, top[0] + 16, "clock", 13, "bold", "end"))
    for i, (time, part, mark, packet, started, line, held) in enumerate(ticks):
        x = LEFT + WIDE * i
        mid = x + WIDE / 2
        out.append(words(mid, top[1] + 16, part_name(part, line, lines), 12))
        out.append(words(mid, top[1] + 36, mark if packet == "-" else f"{mark} {packet}", 15, "bold"))
        done = [w for w in (WORDS.get(mark), started != "-" and f"{started} starts") if w]
        if sizes and started != "-":
            done.append(f"takes {sizes.seconds(started, line):.6g} s")
        out += [words(mid, top[1] + 53 + NOTE * k, text, 12) for k, text in enumerate(done)]
        for (waiting, moving), (waits, high, moves, _) in zip(held, rows):
            out += stack(x, waits, waiting, WAITS, sizes) + stack(x, moves, moving, MOVES, sizes)
            if sizes:
                out.append(words(mid, waits + high - 4, f"{sum(map(sizes.bits, waiting))} bits", 12))
        if mark in ENDS:
            out += [box(x, ends, packet, ENDS[mark], sizes), words(mid, ends + ROW + 14, WORDS[mark], 12)]
        if i:
            out.append(f'<line x1="{x}" y1="{top[1]}" x2="{x}" y2="{ends + ROW}" stroke="#bbb"/>')
    return out + ["</svg>"]


def main():
    parser = argparse.ArgumentParser(description=__doc__, formatter_class=argparse.RawDescriptionHelpFormatter)
    parser.add_argument("--ticks", type=int, default=7, help="how many ticks to draw (if not given: 7)")
    parser.add_argument("--sizes", type=argparse.FileType(), help="the description, for the packets' sizes and the rate")
    parser.add_argument("--bits", help="or the packets' sizes themselves: one for all senders, or one for each, joined by commas")
    parser.add_argument("--rates", help="and the rate of the line, or of both lines joined by a comma, in bit/s")
    given = parser.parse_args()
    if bool(given.bits) != bool(given.rates):
        fail("--bits and --rates go together")
    sizes = given.sizes and described(given.sizes.read())
    if given.bits:
        sizes = Sizes([int(bits) for bits in given.bits.split(",")], [float(rate) for rate in given.rates.split(",")])
    ticks = follow(sys.stdin, given.ticks)
    if not ticks:
        fail("no record line on standard input")
    print("\n".join(draw(ticks, sizes)))


if __name__ == "__main__":
    main()
