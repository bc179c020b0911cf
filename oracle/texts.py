#!/usr/bin/env python3
"""The texts that the gate's program `texts` answers: those of recorded/texts.txt, and each way in which a line or a word can be wrong.

texts.py stdin    the texts, as crates/texts/stdin has them: five digits of length, LF, the bytes
texts.py stdout   the oracle's answers, as crates/texts/stdout has them: an empty line after each
"""
import importlib.machinery
import importlib.util
import os
import subprocess
import sys

HERE = os.path.dirname(os.path.abspath(__file__))


def program(name):
    """A program of this folder, as a module."""
    loader = importlib.machinery.SourceFileLoader(name, os.path.join(HERE, name))
    module = importlib.util.module_from_spec(importlib.util.spec_from_loader(name, loader))
    loader.exec_module(module)
    return module


sys.dont_write_bytecode = True
record = program("record")

# Every number of a description: its line's key, the value with % in its place, the base, and the bits or the most.
NUMBERS = [
    ("delay", "%", 16, 64), ("rate", "%", 16, 64), ("loss", "%", 16, 64), ("limit", "%", 10, 64), ("bits", "%", 10, 64),
    ("bits", "%,8", 10, 64), ("bits", "8,%,8", 10, 64), ("bits", "8,%", 10, 64),
    ("senders", "%", 10, 32), ("on", "always:%", 16, 64), ("on", "uniform:%:3ff0000000000000", 16, 64),
    ("on", "uniform:0000000000000000:%", 16, 64), ("off", "always:%", 16, 64), ("off", "uniform:%:3ff0000000000000", 16, 64),
    ("off", "uniform:0000000000000000:%", 16, 64), ("policy", "held:%", 10, 32), ("policy", "grown:%:64", 10, 32),
    ("policy", "grown:1:%", 10, 32), ("policy", "timed:%:3ff0000000000000", 10, 32), ("policy", "timed:4:%", 16, 64),
    ("seed", "%", 10, 64), ("ticks", "%", 10, 16),
]


def numbers():
    """Each number of a description at its bounds, one past them, and written in another way."""
    for key, value, base, bits in NUMBERS:
        senders = len(value.split(",")) if "," in value else 0
        put = lambda text: record.describe(**{"senders": senders, key: value.replace("%", text)})
        if base == 16:
            for text in ("0000000000000000", "ffffffffffffffff", "3ff0000000000000", "3FF0000000000000", "3ff00000000000AA", "ff0000000000000",
                         "03ff0000000000000", "0x3ff00000000000", "+ff0000000000000", "-ff0000000000000", "", "3ff000000000000g", "3ff000000000000 "):
                yield put(text)
        else:
            most = 65536 if key == "ticks" else 2**bits - 1
            for text in ("0", "1", "9", "10", str(most), str(most + 1), str(10 * most), "01", "00", "+1", "-1", "-0", "", " 1", "1 ", "1\t", "0x1", "1e0", "1.0", "a"):
                yield put(text)


def shapes():
    """Lines and ends of lines that are missing, too many, in another order or longer than they may be."""
    lines = record.describe().splitlines(keepends=True)
    text = "".join(lines)
    for i, line in enumerate(lines):
        without = lines[:i] + lines[i + 1:]
        yield "".join(without)
        yield "".join(lines[:i] + [line, line] + lines[i + 1:])
        yield "".join(lines[:i] + [line[:-1]] + lines[i + 1:])
        yield "".join(lines[:i] + [line + "\n"] + lines[i + 1:])
        yield "".join(lines[:i] + [line[:-1] + "\r\n"] + lines[i + 1:])
        yield "".join(lines[:i] + [line[:-1] + " \n"] + lines[i + 1:])
        yield "".join(lines[:i] + [line[:-1] + "\0\n"] + lines[i + 1:])
        yield "".join(lines[:i] + [line.replace("=", "")] + lines[i + 1:])
        yield "".join(lines[:i] + [line.upper()] + lines[i + 1:])
        yield "".join(lines[:i] + [line[:-1].ljust(128, "0") + "\n"] + lines[i + 1:])
        yield "".join(lines[:i])
        if i:
            yield "".join(lines[:i - 1] + [lines[i], lines[i - 1]] + lines[i + 1:])
    for after in ("\n", "\0", "x", "\r", " ", "ticks=7\n", text):
        yield text + after
    for before in ("\n", "\0", " ", "\ufeff"):
        yield before + text
    for size in (4095, 4096, 4097, 5000):
        yield text + "x" * (size - len(text))
        yield text + "\n" * (size - len(text))
    yield "\n" * 11
    yield "\0" * len(text)


# The words of values: their line's key, the word, and what follows it.
VALUE_WORDS = [
    ("limit", "none", ""), ("on", "always:", "3ff0000000000000"), ("off", "uniform:", "0000000000000000:3ff0000000000000"),
    ("policy", "held:", "3"), ("policy", "grown:", "1:64"), ("policy", "timed:", "4:3ff0000000000000"),
]


def others(word):
    """Words that are nearly the one given: letters and ends more, fewer or others, up to and past eight bytes."""
    letters, end = word.rstrip("=:"), word[-1] if word[-1] in "=:" else ""
    yield letters[:-1] + end
    yield letters[1:] + end
    yield letters + letters[-1] + end
    yield letters[:-1] + chr(ord(letters[-1]) + 1) + end
    yield letters.capitalize() + end
    yield letters[:-1] + "\u0101" + end
    yield letters + ("=" if end == ":" else ":")
    yield letters + end + end
    yield letters + "\0" + end
    yield "\0" + letters + end
    yield "\0" * 8 + letters + end
    yield letters.ljust(7, "z") + end
    yield letters.ljust(8, "z") + end
    yield letters.rjust(16, "z") + end
    yield end


def words():
    """Each word of a description with another in its place."""
    lines = record.describe().splitlines(keepends=True)
    for i, line in enumerate(lines):
        key = line[:line.index("=") + 1]
        for other in others(key):
            yield "".join(lines[:i] + [other + line[len(key):]] + lines[i + 1:])
    for key, word, rest in VALUE_WORDS:
        for other in [word] + list(others(word)):
            yield record.describe(**{"senders": 0, key: other + rest})
    for key, word, rest in VALUE_WORDS[1:]:
        yield record.describe(**{"senders": 0, key: rest})
        yield record.describe(**{"senders": 0, key: word})


def texts():
    """Each text once, as bytes."""
    seen = set()
    for text in [t for _, t in record.text_cases()] + list(numbers()) + list(shapes()) + list(words()):
        data = text if isinstance(text, bytes) else text.encode()
        if data not in seen:
            seen.add(data)
            yield data


def answer(data):
    return subprocess.run([record.ORACLE, "run"], input=data, stdout=subprocess.PIPE, check=True).stdout


def main():
    out = sys.stdout.buffer
    if sys.argv[1:] == ["stdin"]:
        for data in texts():
            out.write(b"%05d\n%s" % (len(data), data))
    elif sys.argv[1:] == ["stdout"]:
        for data in texts():
            out.write(answer(data) + b"\n")
    else:
        sys.exit(__doc__)


if __name__ == "__main__":
    main()
