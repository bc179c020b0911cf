#!/usr/bin/env python3
"""States and networks for every stop of document 01, as a script for the port's program `held`, with
the answers that document 01 gives, with document 02's K1.

Not the Rust's answers: it has no stop 9 and cannot be given a state. Each case names what it is; a
refused call must answer its number, change no field, and give the empty record.
"""
import math
import struct

from draws import child, from_seed, xoshiro

MAX = 1.7976931348623157e308
NAN = math.nan
INF = math.inf
TINY = 2.0**-1074
TOGGLE = 101.0
LINK_WORDS = (14956314531195876544, 7576440072486442806, 6053824538967488443, 6254198100547973758)
TOGGLER_WORDS = (1781989159761824720, 2477283028068920342, 16978024111547606601, 6336475467619303347)
EMPTY_RECORD = f"time={'0' * 16} part=0 mark=- packet=- line=-"


def field(x):
    """A field of a line: an absent value, a double by its bits, a whole number."""
    if x is None:
        return "-" * 16
    if isinstance(x, float):
        return struct.pack(">d", x).hex()
    return f"{int(x):016x}"


def command(letter, *fields):
    return " ".join([letter] + [field(x) for x in fields])


def after(x):
    return math.nextafter(x, INF)


def before(x):
    return math.nextafter(x, -INF)


# ---- networks

def always(v):
    return (0, v, 0.0)


def uniform(low, high):
    return (1, low, high)


def held(w):
    return (0, w, 0, 0.0)


def grown(first, most):
    return (1, first, most, 0.0)


def timed(most, gap):
    return (2, 0, most, gap)


GOOD = dict(delay=1.0, rate=8.0, loss=0.0, limit=None, bits=8, senders=1,
            on=always(1.0), off=always(1.0), policy=held(3), back=None)
WORKED = dict(GOOD, limit=8, on=always(100.0))
DROPPED = dict(GOOD, delay=0.0, rate=1.0, limit=0, bits=11200, policy=held(1),
               on=always(2.0**20), off=always(2.0**20))


def network(n):
    back = (0,) * 5 if n["back"] is None else (1, *n["back"])
    return (n["delay"], n["rate"], n["loss"], n["limit"], *places(n["bits"]), n["senders"], *n["on"], *n["off"], *n["policy"], *back)


def places(bits):
    """The network's 16 packet bits: of one number, or of a tuple for the first senders and 0 after it."""
    return (bits,) * 16 if isinstance(bits, int) else (bits + (0,) * 16)[:16]


def build(n, seed=1):
    return command("B", *network(n), seed)


def empty_words():
    return child(from_seed(0))[0]


# ---- answers

def refused(number):
    return f"tick {number} still same {EMPTY_RECORD}"


IDLE = refused(0)
MOVED = "tick 0 moved changed"


def cases():
    """Of each case: what it is, its commands, the answers."""
    yield from builds()
    yield from unfit()
    yield from unfit_sizes()
    yield from others()


# ---- 1 to 7: both ends of each range and what lies next outside

def builds():
    def each(name, pairs):
        for value, number in pairs:
            yield f"{name} {value}", [build(dict(GOOD, **{name: value}))], [f"build {number}"]

    yield "a good network", [build(GOOD)], ["build 0"]
    yield from each("delay", [(0.0, 0), (-0.0, 0), (2.0**20, 0), (-TINY, 1), (after(2.0**20), 1), (NAN, 1), (INF, 1), (-INF, 1)])
    yield from each("rate", [(1.0, 0), (2.0**50, 0), (before(1.0), 2), (after(2.0**50), 2), (NAN, 2), (INF, 2)])
    yield from each("loss", [(0.0, 0), (-0.0, 0), (1.0, 0), (-TINY, 3), (after(1.0), 3), (NAN, 3)])
    yield from each("limit", [(None, 0), (0, 0), (2**50, 0), (2**50 + 1, 4), (2**64 - 1, 4)])
    yield from each("bits", [(1, 0), (2**24, 0), (0, 5), (2**24 + 1, 5), (2**64 - 1, 5)])
    at_places = [(place, 0, 5) for place in range(16)]
    at_places += [(place, value, number) for place in (0, 15) for value, number in [(1, 0), (2**24, 0), (2**24 + 1, 5), (2**64 - 1, 5)]]
    for place, value, number in at_places:
        sizes = (8,) * place + (value,) + (8,) * (15 - place)
        yield f"16 senders, and {value} bits at place {place}", [build(dict(GOOD, senders=16, bits=sizes))], [f"build {number}"]
    for value in (0, 2**24 + 1, 2**64 - 1):
        yield f"no senders, and {value} bits, which are not tested", [build(dict(GOOD, senders=0, bits=value))], ["build 0"]
        yield f"two senders, and {value} bits in the places after theirs", [build(dict(GOOD, senders=2, bits=(8, 4) + (value,) * 14))], ["build 0"]
    yield from each("senders", [(0, 0), (16, 0), (17, 5), (2**32 - 1, 5)])
    times = [(always(TINY), 0), (always(2.0**20), 0), (always(0.0), 6), (always(-0.0), 6), (always(after(2.0**20)), 6),
             (always(NAN), 6), (uniform(0.0, 2.0**20), 0), (uniform(before(2.0**20), 2.0**20), 0), (uniform(-0.0, 1.0), 0),
             (uniform(1.0, 1.0), 6), (uniform(1.0, before(1.0)), 6), (uniform(-TINY, 1.0), 6), (uniform(0.0, after(2.0**20)), 6),
             (uniform(NAN, 1.0), 6), (uniform(0.0, NAN), 6), (uniform(-0.0, 0.0), 6)]
    yield from each("on", times)
    yield from each("off", times)
    yield from each("policy", [
        (held(1), 0), (held(64), 0), (held(0), 7), (held(65), 7),
        (grown(1, 1), 0), (grown(64, 64), 0), (grown(0, 1), 7), (grown(1, 65), 7), (grown(2, 1), 7), (grown(1, 0), 7),
        (timed(1, 1.0), 0), (timed(64, 1.0), 0), (timed(0, 1.0), 7), (timed(65, 1.0), 7), (timed(1, 2.0**-20), 0),
        (timed(1, 2.0**20), 0), (timed(1, before(2.0**-20)), 7), (timed(1, after(2.0**20)), 7), (timed(1, NAN), 7)])
    yield "of several the lowest", [
        build(dict(GOOD, delay=NAN, rate=NAN, policy=held(0))), build(dict(GOOD, bits=0, on=always(0.0))),
        build(dict(GOOD, off=always(0.0), policy=held(0)))], ["build 1", "build 5", "build 6"]
    link = ":".join(str(w) for w in empty_words())
    state = f"state clock={field(MAX)} next=- earliest={field(-MAX)} bits=0 waiting=- line=- link={link} queue=-"
    yield "a refused build returns the empty simulation, which is idle", [
        build(dict(GOOD, loss=2.0)), "A", "T"], ["build 3", state, IDLE]
    # The recorded network whose first eight draws are not positive, and a seed that has a positive one among them.
    rare = dict(GOOD, off=uniform(0.0, TINY))
    low, high = build_seeds()
    yield "eight draws in a row not positive, in a build", [build(rare, low), "A", build(rare, high)], ["build 8", state, "build 0"]


def draws_low(words):
    """How many draws in a row of uniform 0..2^-1074 are not positive, up to eight."""
    for n in range(8):
        output, words = xoshiro(words)
        if output // 4096 > 2**51:
            return n
    return 8


def toggler_words(seed):
    root = from_seed(seed)
    for _ in range(3):
        made, root = child(root)
    return made


def build_seeds():
    low = next(s for s in range(100000) if draws_low(toggler_words(s)) == 8)
    high = next(s for s in range(100000) if draws_low(toggler_words(s)) == 7)
    return low, high


# ---- 9: one state for each clause, with fit neighbours

def clock(t, part=0):
    return command("C", t, part)


def line(earliest=3.0, bits=8, waiting_from=2, waiting=1, on_line_from=1, on_line=1):
    return command("L", earliest, bits, waiting_from, waiting, on_line_from, on_line)


def first(sender, seq, sent, bits=8):
    return command("W", 2, 1, sender, seq, sent, bits)


def second(sender, seq, sent, bits=8):
    return command("W", 3, 1, sender, seq, sent, bits)


def front(sender, seq, sent, due):
    return command("O", 1, 1, sender, seq, sent, due)


def sender(sent=4, on=True, started=1.0, ack=1, window=3, timer=None, i=0):
    return command("S", i, sent, on, started, ack, window, timer)


def toggler(on=True, time=TOGGLE, words=TOGGLER_WORDS, i=0):
    return command("G", i, on, time, *words)


def meter(total=0.0, start=1.0, bits=8, records=1, rtt=1.0, i=0):
    return command("M", i, total, start, bits, records, rtt)


def queued(k, time):
    return command("Q", k, time)


def with_network(**changed):
    return command("V", *network(dict(GOOD, **changed)))


def waiters(start, count):
    return [sender(sent=1000), command("W", 0, 512, 0, 1, 1.0, 8), line(bits=8 * count, waiting_from=start, waiting=count)]


def travellers(start, count, due=3.0):
    return [sender(sent=1000), command("O", 0, 512, 0, 1, 1.0, due), line(on_line_from=start, on_line=count)]


def unfit():
    busy = [build(WORKED), command("R", 7), "K"]
    yield "the worked example after its seven ticks", busy, ["build 0", f"run 7 0 {field(3.0)}"]

    def fit(what, *edits):
        return f"fit: {what}", ["Z", *edits, "T"], [MOVED]

    def not_fit(what, *edits):
        return f"unfit: {what}", ["Z", *edits, "T"], [refused(9)]

    yield fit("as it is")
    yield fit("another network", with_network())
    for name, value in [("delay", NAN), ("rate", 0.0), ("loss", NAN), ("limit", 2**50 + 1), ("bits", 0), ("senders", 17),
                        ("on", always(0.0)), ("off", always(0.0)), ("policy", held(0))]:
        yield not_fit(f"network with {name} {value}", with_network(**{name: value}))
    yield fit("512 wait", *waiters(0, 512))
    yield not_fit("513 wait", *waiters(0, 513))
    yield fit("512 on the line", *travellers(0, 512))
    yield not_fit("513 on the line", *travellers(0, 513))
    yield fit("waiting from 511", *waiters(511, 2))
    yield not_fit("waiting from 512", *waiters(512, 2))
    yield fit("on the line from 511", *travellers(511, 2))
    yield not_fit("on the line from 512", *travellers(512, 2))
    yield not_fit("a waiting packet names no sender", first(1, 4, 2.0))
    yield not_fit("a packet on the line names no sender", front(1, 2, 1.0, 3.0))
    yield fit("a waiting packet's sequence 1", first(0, 1, 2.0))
    yield not_fit("a waiting packet's sequence 0", first(0, 0, 2.0))
    yield not_fit("a waiting packet's sequence above sent", first(0, 5, 2.0))
    yield fit("a sequence on the line at sent", front(0, 4, 1.0, 3.0))
    yield not_fit("a sequence 0 on the line", front(0, 0, 1.0, 3.0))
    yield not_fit("a sequence on the line above sent", front(0, 5, 1.0, 3.0))
    yield not_fit("waiting bits one too few", line(bits=7))
    yield not_fit("waiting bits one too many", line(bits=9))
    # A clock: of an idle state, where no sender's start is outside 0..clock too.
    idle = build(dict(GOOD, senders=0))
    for t, answer in [(0.0, IDLE), (-0.0, IDLE), (-TINY, refused(9)), (NAN, refused(9)), (2.0**41, IDLE),
                      (after(2.0**41), refused(9)), (INF, refused(9)), (MAX, IDLE), (before(MAX), refused(9))]:
        yield f"an idle state's clock {t}", [idle, clock(t, None), "T"], ["build 0", answer]
    yield not_fit("a clock MAX with a next part", clock(MAX, 2), toggler(time=MAX))
    yield fit("an earliest start of 2^41", line(earliest=2.0**41))
    yield not_fit("an earliest start above 2^41", line(earliest=after(2.0**41)))
    yield not_fit("an earliest start NaN", line(earliest=NAN))
    for x in (after(2.0**41), NAN):
        yield not_fit(f"a waiting packet sent at {x}", first(0, 4, x))
        yield not_fit(f"a packet on the line sent at {x}", front(0, 2, x, 3.0))
        yield not_fit(f"a due time {x}", front(0, 2, 1.0, x))
        yield not_fit(f"a sender's start {x}", sender(started=x))
        yield not_fit(f"a meter's start {x}", meter(start=x))
        yield not_fit(f"a toggle {x}", toggler(time=x), queued(2, x))
        yield not_fit(f"a timer {x}", with_network(policy=timed(64, 1.0)), sender(window=4, timer=x), queued(1, 3.0))
    yield fit("a due time 2^41", front(0, 2, 1.0, 2.0**41))
    yield fit("a timer 2^41", with_network(policy=timed(64, 1.0)), sender(window=4, timer=2.0**41), queued(1, 3.0))
    yield fit("a toggle 2^41", toggler(time=2.0**41), queued(2, 2.0**41))
    yield fit("a toggle queued at the clock", toggler(time=3.0), queued(2, 3.0))
    yield not_fit("a toggle queued below the clock", toggler(time=before(3.0)), queued(2, before(3.0)))
    for start, good in [(0.0, True), (-0.0, True), (3.0, True), (-TINY, False), (after(3.0), False)]:
        say = fit if good else not_fit
        yield say(f"a waiting packet sent at {start}", first(0, 4, start))
        yield say(f"a packet on the line sent at {start}", front(0, 2, start, 3.0))
        yield say(f"a sender's start {start}", sender(started=start))
        yield say(f"a meter's start {start}", meter(start=start))
    for total, good in [(-0.0, True), (MAX, True), (-TINY, False), (INF, False), (NAN, False)]:
        yield (fit if good else not_fit)(f"a total enabled time {total}", meter(total=total))
    for rtt, good in [(-0.0, True), (2.0**41, True), (-TINY, False), (after(2.0**41), False), (NAN, False)]:
        yield (fit if good else not_fit)(f"an RTT sum {rtt} of one record", meter(rtt=rtt))
    yield fit("records at sent less those held", meter(records=2, bits=16))
    yield not_fit("records above sent less those held", meter(records=3, bits=24))
    two = line(on_line=2)
    for due, good in [(3.0, True), (4.0, True), (before(3.0), False)]:
        yield (fit if good else not_fit)(f"due at 3, then at {due}", two, command("O", 2, 1, 0, 3, 1.0, due))
    yield fit("sent 2^24", sender(sent=2**24))
    yield not_fit("sent above 2^24", sender(sent=2**24 + 1))
    yield fit("a greatest ack 2^24", sender(ack=2**24), queued(1, 3.0))
    yield not_fit("a greatest ack above 2^24", sender(ack=2**24 + 1), queued(1, 3.0))
    yield fit("a window 1", sender(window=1))
    yield not_fit("a window 0", sender(window=0))
    yield fit("a window 64", sender(window=64), queued(1, 3.0))
    yield not_fit("a window 65", sender(window=65), queued(1, 3.0))
    yield fit("a timer of a timed policy", with_network(policy=timed(64, 1.0)), sender(timer=4.0), queued(1, 4.0))
    yield not_fit("a timer of a held policy", sender(timer=4.0), queued(1, 4.0))
    off = sender(on=False)
    yield fit("all three off", off, toggler(on=False), meter(start=None))
    yield not_fit("toggler off, sender and meter on", toggler(on=False))
    yield not_fit("toggler on, sender and meter off", off, meter(start=None))
    yield not_fit("meter off, sender and toggler on", meter(start=None))
    yield not_fit("meter on, sender and toggler off", off, toggler(on=False))
    yield not_fit("meter bits one too few", meter(bits=7))
    yield not_fit("meter bits one too many", meter(bits=9))
    link = queued(0, 3.0)
    yield fit("the clock is the next part's own time", clock(3.0, 0))
    yield not_fit("a clock that is not the next part's own time", clock(2.5, 0))
    yield not_fit("a next part with no time of its own", link, clock(3.0, 1))
    yield not_fit("a next part that is not there", link, clock(3.0, 3))
    yield not_fit("no next part though some are queued", link, clock(3.0, None))
    yield not_fit("another part queued at another time than its own", queued(2, 64.0))
    for k in (1, 3, 4, 32, 33, 34):
        yield not_fit(f"part {k} queued with no time of its own", queued(k, 3.0))
    yield not_fit("another part not queued, with a time of its own", queued(2, None))
    for x, good in [(3.0, True), (2.0**41, True), (2.0, False), (after(2.0**41), False), (NAN, False)]:
        yield (fit if good else not_fit)(f"{x} in the next part's own place in the queue", queued(0, x))
    pair = [with_network(senders=2), toggler(on=False, i=1), queued(4, TOGGLE)]
    yield fit("a second sender", *pair)
    yield not_fit("the second sender's meter", *pair, meter(total=-1.0, start=None, bits=0, records=0, rtt=0.0, i=1))
    yield not_fit("the second sender's toggler", *pair, toggler(on=False, time=NAN, i=1))
    yield fit("a meter above the senders", meter(total=NAN, i=1))
    yield fit("bits above 2^24 in a place after the senders'", with_network(bits=(8, 2**24 + 1)))
    yield fit("waiting bits above the limit", *waiters(0, 2))
    yield fit("a packet held twice", first(0, 2, 2.0))
    yield fit("a greatest ack above sent", sender(ack=5), queued(1, 3.0))


def unfit_sizes():
    """Senders of 8 and of 4 bits, a packet of each waiting, and a record of the first."""
    two = [with_network(senders=2, bits=(8, 4)), sender(sent=3, on=False, i=1), toggler(on=False, i=1), queued(4, TOGGLE),
           second(1, 1, 2.0, 4), line(bits=12, waiting=2)]
    yield "the worked example with a second sender, of 4 bits", [build(WORKED), command("R", 7), *two, "K"], ["build 0", f"run 7 0 {field(3.0)}"]

    def fit(what, *edits):
        return f"fit: {what}", ["Z", *edits, "T"], [MOVED]

    def not_fit(what, *edits):
        return f"unfit: {what}", ["Z", *edits, "T"], [refused(9)]

    yield fit("packets of 8 and of 4 bits wait")
    for bits in (8, 4, 11, 13, 16, 0):
        yield not_fit(f"waiting bits {bits} of packets of 8 and of 4", line(bits=bits, waiting=2))
    yield fit("both waiting packets are the first sender's", second(0, 3, 2.0, 8), line(bits=16, waiting=2))
    yield fit("both waiting packets are the second sender's", first(1, 2, 2.0, 4), line(bits=8, waiting=2))
    yield fit("the packet of 4 bits is the first to start", first(1, 1, 2.0, 4), second(0, 4, 2.0, 8))
    yield not_fit("each carries the other's bits", first(0, 4, 2.0, 4), second(1, 1, 2.0, 8))
    for bits in (4, 7, 9, 0):
        yield not_fit(f"the first waiting packet carries {bits} bits, its sender's are 8", first(0, 4, 2.0, bits), line(bits=bits + 4, waiting=2))
    for bits in (8, 3, 5, 0):
        yield not_fit(f"the second waiting packet carries {bits} bits, its sender's are 4", second(1, 1, 2.0, bits), line(bits=8 + bits, waiting=2))
    most = 2**64 - 1
    yield not_fit("what they carry is 2^64 more than the waiting bits", first(0, 4, 2.0, most - 3), second(1, 1, 2.0, 16))
    yield not_fit("512 wait, and each carries 2^64 - 1 bits", sender(sent=1000), command("W", 0, 512, 0, 1, 1.0, most), line(bits=most, waiting_from=0, waiting=512))
    yield fit("other bits in a slot where none waits", second(1, 1, 2.0, 5), line(bits=8))
    for numbers, good in [((8, 4), True), ((8, 5), False), ((7, 4), False), ((4, 8), False), ((8, 8), False), ((4, 4), False)]:
        yield (fit if good else not_fit)(f"the senders' bits are {numbers[0]} and {numbers[1]}", with_network(senders=2, bits=numbers))
    for records, bits, good in [(1, 4, True), (1, 8, False), (1, 3, False), (1, 5, False), (2, 8, True), (2, 16, False), (2, 12, False), (0, 0, True), (0, 4, False)]:
        say, counted = fit if good else not_fit, meter(start=None, bits=bits, records=records, rtt=float(records), i=1)
        yield say(f"{bits} bits and {records} records in the meter of the sender of 4", counted)
    for bits in (4, 12):
        yield not_fit(f"{bits} bits and 1 record in the meter of the sender of 8", meter(bits=bits))
    yield fit("no packets wait, and the bits are 0", line(bits=0, waiting=0))
    yield not_fit("no packets wait, and the bits are the first sender's", line(bits=8, waiting=0))
    half = [sender(sent=1000), sender(sent=1000, on=False, i=1), command("W", 0, 512, 0, 1, 1.0, 8), command("W", 0, 256, 1, 1, 1.0, 4)]
    for bits, good in [(256 * 12, True), (512 * 8, False), (512 * 4, False)]:
        say = fit if good else not_fit
        yield say(f"512 wait, half of them of 4 bits, waiting bits {bits}", *half, line(bits=bits, waiting_from=300, waiting=512))


# ---- 8 and 10 to 13, idle, runs and flows

def others():
    def after_z(what, answer, *edits):
        return what, ["Z", *edits, "T"], [answer]

    fresh = [build(WORKED), "K"]
    yield "the worked example before its first tick", fresh, ["build 0"]
    rare = with_network(on=uniform(0.0, TINY))
    low = next(w for w in ((n, 0, 0, n) for n in range(2**40, 2**60, 2**40 + 12345)) if draws_low(w) == 8)
    high = next(w for w in ((n, 0, 0, n) for n in range(2**40, 2**60, 2**40 + 12345)) if draws_low(w) == 7)
    yield after_z("8: eight draws in a row not positive; the generator too is left alone", refused(8), rare, toggler(False, 1.0, low))
    yield after_z("the eighth draw is positive", MOVED, rare, toggler(False, 1.0, high))
    yield after_z("the clock at 2^40", MOVED, clock(2.0**40, 2), toggler(False, 2.0**40))
    yield after_z("10: the clock above 2^40", refused(10), clock(after(2.0**40), 2), toggler(False, after(2.0**40)))
    yield after_z("9 before 10", refused(9), clock(after(2.0**40), 2), toggler(True, after(2.0**40)))
    yield after_z("10 before 8", refused(10), rare, clock(after(2.0**40), 2), toggler(False, after(2.0**40), low))
    yield "10 by ticks alone, and the run says no other", [
        build(DROPPED), command("R", 2000000), "T", command("R", 1), command("R", 0)], [
        "build 0", f"run 1572864 10 {field(2.0**40 + 2.0**20)}", refused(10),
        f"run 0 10 {field(2.0**40 + 2.0**20)}", f"run 0 0 {field(2.0**40 + 2.0**20)}"]

    busy = [build(WORKED), command("R", 7), "K"]
    yield "the worked example after its seven ticks", busy, ["build 0", f"run 7 0 {field(3.0)}"]
    turn = [queued(0, 3.0), clock(3.0, 1)]
    yield after_z("sent 2^24 - 1 and due to send", MOVED, sender(sent=2**24 - 1, ack=2**24), *turn)
    yield after_z("11: sent 2^24 and due to send", refused(11), sender(sent=2**24, ack=2**24), *turn)
    unlimited = with_network(on=always(100.0))

    def full(count):
        return [sender(sent=1000, ack=1000), command("W", 0, 512, 0, 1, 1.0, 8),
                line(bits=8 * count, waiting_from=0, waiting=count), *turn]
    yield after_z("511 wait and one is admitted", MOVED, unlimited, *full(511))
    yield after_z("12: 512 wait and one is admitted", refused(12), unlimited, *full(512))
    yield after_z("512 wait and one is dropped full", MOVED, *full(512))
    yield after_z("11 before 12", refused(11), unlimited, *full(512), sender(sent=2**24, ack=2**24))
    yield after_z("511 on the line and one starts", MOVED, *travellers(0, 511, 4.0))
    yield after_z("13: 512 on the line and one starts", refused(13), *travellers(0, 512, 4.0))
    yield after_z("512 on the line, one leaves and one starts", MOVED, *travellers(0, 512, 3.0))
    yield "idle: no senders", [build(dict(GOOD, senders=0)), "T", command("R", 5)], [
        "build 0", IDLE, f"run 0 0 {field(MAX)}"]
    yield "a run that meets a refused tick does not count it", [
        "Z", command("R", 0), with_network(loss=NAN), command("R", 3), command("R", 0)], [
        f"run 0 0 {field(3.0)}", f"run 0 9 {field(3.0)}", f"run 0 0 {field(3.0)}"]
    yield "single ticks, each of the state that the one before returned", [
        build(WORKED), command("U", 0), command("U", 4), command("U", 3), "T"], [
        "build 0", f"ticks 0 0 {field(1.0)}", f"ticks 4 0 {field(1.0)}", f"ticks 3 0 {field(3.0)}", MOVED]
    yield "single ticks up to one that is refused, or idle", [
        "Z", with_network(loss=NAN), command("U", 3), build(dict(GOOD, senders=0)), command("U", 5)], [
        f"ticks 0 9 {field(3.0)}", "build 0", f"ticks 0 0 {field(MAX)}"]
    yield "the flow of a sender, and of none", ["Z", command("F", 0), command("F", 1), command("F", 16)], [
        f"flow=0 sent=4 counted=1 rate={field(4.0)} rtt={field(1.0)}", "flow=1 sent=0 counted=0 -", "flow=16 -"]
