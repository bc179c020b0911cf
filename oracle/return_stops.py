"""States and networks with a return line (document 02, K4) for the stops that read it, as a script for the port's program `held`, with the
answers that documents 01 and 02 give. Not the Rust's answers, as those of stops.py.
"""
from stops import (
    GOOD, IDLE, INF, MAX, MOVED, NAN, TINY, always, after, before, build, build_seeds, clock, command, empty_words, field, held, meter, network, queued,
    refused, sender, toggler, uniform)

BACK = (4.0, 4.0, 0.0, None)
BOTH = dict(GOOD, on=always(100.0), policy=held(8), back=BACK)
# After its ticks: 0:5 on the first line, 0:6 to 0:8 waiting there; 0:1 and 0:2 on the second, 0:3 and 0:4 waiting there. Part 0 is next at 6,
# and part 4 queued at 6.
TICKS = 16
CLOCK = 6.0


def with_network(**changed):
    return command("V", *network(dict(BOTH, **changed)))


def line(earliest=6.0, bits=16, waiting_from=2, waiting=2, on_line_from=0, on_line=2):
    """The second line."""
    return command("l", earliest, bits, waiting_from, waiting, on_line_from, on_line)


def first(sender, seq, sent, bits=8):
    """The first packet that waits for the second line."""
    return command("w", 2, 1, sender, seq, sent, bits)


def front(sender, seq, sent, due):
    """The first packet on the second line."""
    return command("o", 0, 1, sender, seq, sent, due)


def sent(count):
    """The sender has sent so many, and none more is due."""
    return sender(sent=count, ack=0, window=8)


def waiters(count, start=0):
    return [sent(2000), command("w", 0, 512, 0, 1, 1.0, 8), line(bits=8 * count, waiting_from=start, waiting=count)]


def travellers(count, start=0, due=6.0):
    return [sent(2000), command("o", 0, 512, 0, 1, 1.0, due), line(on_line_from=start, on_line=count)]


def cases():
    """Of each case: what it is, its commands, the answers."""
    yield from builds()
    yield "a network with a return line, after some ticks", [build(BOTH), command("R", TICKS), "K"], ["build 0", f"run {TICKS} 0 {field(CLOCK)}"]
    yield from unfit()
    yield from others()


# ---- 20

def builds():
    delay, rate, loss, limit = BACK
    numbers = [
        ("delay", lambda x: (x, rate, loss, limit), [0.0, -0.0, 2.0**20], [-TINY, after(2.0**20), NAN, INF, -INF]),
        ("rate", lambda x: (delay, x, loss, limit), [1.0, 2.0**50], [before(1.0), after(2.0**50), 0.0, NAN, INF]),
        ("loss", lambda x: (delay, rate, x, limit), [0.0, -0.0, 1.0], [-TINY, after(1.0), NAN]),
        ("limit", lambda x: (delay, rate, loss, x), [None, 0, 2**50], [2**50 + 1, 2**64 - 1]),
    ]
    for name, back, good, bad in numbers:
        for value, number in [(value, 0) for value in good] + [(value, 20) for value in bad]:
            yield f"a return line's {name} {value}", [build(dict(GOOD, back=back(value)))], [f"build {number}"]
    nowhere = (NAN, NAN, NAN, 2**64 - 1)
    yield "1 to 7 before 20", [
        build(dict(GOOD, delay=NAN, back=nowhere)), build(dict(GOOD, limit=2**50 + 1, back=nowhere)), build(dict(GOOD, policy=held(0), back=nowhere)),
        build(dict(GOOD, senders=0, back=nowhere))], ["build 1", "build 4", "build 7", "build 20"]
    link = ":".join(str(word) for word in empty_words())
    state = f"state clock={field(MAX)} next=- earliest={field(-MAX)} bits=0 waiting=- line=- link={link} queue=-"
    rare = dict(GOOD, off=uniform(0.0, TINY))
    low, _ = build_seeds()
    yield "20 before any draw, and the empty simulation is returned", [build(dict(rare, back=nowhere), low), "A", "T"], ["build 20", state, IDLE]
    yield "8 with a return line, and the empty simulation is returned", [build(dict(rare, back=BACK), low), "A"], ["build 8", state]


# ---- 9: one state for each clause that reads the second line, with fit neighbours

def unfit():
    def fit(what, *edits):
        return f"fit: {what}", ["Z", *edits, "T"], [MOVED]

    def not_fit(what, *edits):
        return f"unfit: {what}", ["Z", *edits, "T"], [refused(9)]

    yield fit("as it is")
    yield fit("another return line", with_network(back=(2.0**20, 1.0, 1.0, 2**50)))
    for name, back in [("delay", (NAN, 4.0, 0.0, None)), ("rate", (4.0, 0.0, 0.0, None)), ("loss", (4.0, 4.0, NAN, None)), ("limit", (4.0, 4.0, 0.0, 2**50 + 1))]:
        yield not_fit(f"a return line whose {name} 20 refuses", with_network(back=back))
    # With room for one packet no more is admitted: 12 is not met.
    small = with_network(back=(4.0, 4.0, 0.0, 8))
    yield fit("512 wait for the second line", small, *waiters(512))
    yield not_fit("513 wait for the second line", small, *waiters(513))
    yield fit("512 on the second line", *travellers(512))
    yield not_fit("513 on the second line", *travellers(513))
    yield fit("waiting from 511 on the second line", *waiters(2, 511))
    yield not_fit("waiting from 512 on the second line", *waiters(2, 512))
    yield fit("on the second line from 511", *travellers(2, 511))
    yield not_fit("on the second line from 512", *travellers(2, 512))
    yield not_fit("a packet that waits for the second line names no sender", first(1, 3, 1.0))
    yield not_fit("a packet on the second line names no sender", front(1, 1, 1.0, 6.0))
    for seq, good in [(1, True), (8, True), (0, False), (9, False)]:
        say = fit if good else not_fit
        yield say(f"a sequence {seq} waiting for the second line", first(0, seq, 1.0))
        yield say(f"a sequence {seq} on the second line", front(0, seq, 1.0, 6.0))
    for bits, good in [(16, True), (15, False), (17, False), (8, False), (24, False)]:
        yield (fit if good else not_fit)(f"waiting bits {bits} of the second line", line(bits=bits))
    for bits in (4, 9, 0):
        yield not_fit(f"a packet that waits for the second line carries {bits} bits, its sender's are 8", first(0, 3, 1.0, bits), line(bits=8 + bits))
    yield fit("other bits in a slot of the second line where none waits", command("w", 4, 1, 0, 3, 1.0, 5))
    yield fit("waiting bits above the second line's limit", small)
    for x, good in [(6.0, True), (2.0**41, True), (after(2.0**41), False), (NAN, False)]:
        # An earliest start above the clock leaves the due time as the second link's own.
        yield (fit if good else not_fit)(f"an earliest start {x} of the second line", line(earliest=x))
    for x, good in [(0.0, True), (-0.0, True), (6.0, True), (-TINY, False), (after(6.0), False), (NAN, False)]:
        say = fit if good else not_fit
        yield say(f"a packet that waits for the second line sent at {x}", first(0, 3, x))
        yield say(f"a packet on the second line sent at {x}", front(0, 1, x, 6.0))
    later = command("o", 1, 1, 0, 2, 1.0, 2.0**41)
    yield fit("a due time 2^41 on the second line", later)
    for x in (after(2.0**41), NAN, before(6.0)):
        yield not_fit(f"due at 6 on the second line, then at {x}", command("o", 1, 1, 0, 2, 1.0, x))
    yield fit("due at 6 twice on the second line", command("o", 1, 1, 0, 2, 1.0, 6.0))
    yield fit("records at sent less those held on both lines", sent(9), meter(records=1, bits=8))
    yield not_fit("records above sent less those held on both lines", meter(records=1, bits=8))
    yield fit("one packet fewer on the second line", line(on_line=1), meter(records=1, bits=8))
    yield fit("one packet fewer waiting for the second line", line(bits=8, waiting=1), meter(records=1, bits=8))
    yield not_fit("another second link's time than its own", queued(4, 7.0))
    yield not_fit("the second link not queued, with a time of its own", queued(4, None))
    yield not_fit("the second link queued with no time of its own", line(bits=0, waiting=0, on_line=0))
    yield fit("nothing on the second line, and its link not queued", line(bits=0, waiting=0, on_line=0), queued(4, None))
    for k in (3, 5, 33, 34):
        yield not_fit(f"part {k} queued with no time of its own", queued(k, 6.0))
    turn = [queued(0, 6.0), queued(4, None)]
    yield fit("the second link is next", *turn, clock(6.0, 4))
    yield not_fit("the bouncer is next", *turn, queued(4, 6.0), clock(6.0, 3))
    yield not_fit("the second link is next before its own time", *turn, clock(5.5, 4))
    yield not_fit("a next part that is not there", *turn, queued(4, 6.0), clock(6.0, 5))
    alone = [with_network(back=None), queued(4, None)]
    yield fit("no return line: what is held for one is not read", *alone)
    yield fit("no return line, and nonsense where one would be", *alone, line(NAN, 1, 600, 600, 700, 700), first(9, 0, NAN, 0), front(9, 0, NAN, NAN))
    yield not_fit("no return line, and its link queued", with_network(back=None))
    yield fit("no return line: records at sent less those on the first line", *alone, meter(records=4, bits=32))
    yield not_fit("no return line: records above sent less those on the first line", *alone, meter(records=5, bits=40))


# ---- 12 and 13

def others():
    def after_z(what, answer, *edits):
        return what, ["Z", *edits, "T"], [answer]

    small = with_network(back=(4.0, 4.0, 0.0, 8))
    lost = with_network(loss=1.0)
    yield after_z("511 wait for the second line and one is admitted", MOVED, *waiters(511))
    yield after_z("12: 512 wait for the second line and one is admitted", refused(12), *waiters(512))
    yield after_z("512 wait for the second line and one is dropped full", MOVED, small, *waiters(512))
    yield after_z("512 wait for the second line and one is lost on the first", MOVED, lost, *waiters(512))
    yield after_z("12: 512 wait for the second line from 300 on", refused(12), *waiters(512, 300))
    turn = [queued(0, 6.0), queued(4, None), clock(6.0, 4)]
    yield after_z("511 on the second line and one starts", MOVED, *turn, *travellers(511, due=7.0))
    yield after_z("13: 512 on the second line and one starts", refused(13), *turn, *travellers(512, due=7.0))
    yield after_z("512 on the second line, one leaves and one starts", MOVED, *turn, *travellers(512))
    yield after_z("512 on the second line, one leaves and none starts", MOVED, *turn, *travellers(512), line(earliest=7.0, on_line=512))
    yield after_z("13 on the first line", refused(13), sent(2000), command("O", 0, 512, 0, 1, 1.0, 7.0), command("L", 6.0, 24, 5, 3, 0, 512))
    yield after_z("12 on the first line", refused(12), sender(sent=2000, ack=2000, window=8), command("W", 0, 512, 0, 1, 1.0, 8),
                  command("L", 6.0, 8 * 512, 0, 512, 4, 1), queued(0, 6.0), clock(6.0, 1))
    for late, answer in [(2.0**40, MOVED), (after(2.0**40), refused(10))]:
        yield after_z(f"the second link is next at {late}", answer, clock(late, 4), line(earliest=late, on_line=0), command("L", late, 24, 5, 3, 0, 0),
                      toggler(time=late), queued(0, late), queued(2, late), queued(4, None))
