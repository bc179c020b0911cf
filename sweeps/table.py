#!/usr/bin/env python3
"""A thousand runs, and a table of them.

The description is run with 10 limits, 10 windows and 10 seeds in the place of its own. --library
runs all of them in this process, --program starts remyline for each; the tables are the same, and
table.c writes them too. README.md describes the columns. With --flows no record is read, nor
printed by the library, and the column `full`, which counts records, is left out.

    sweeps/table.py --library target/libsweep.so examples/small-queue.txt > table.csv
    sweeps/table.py --flows --library target/libsweep.so examples/small-queue.txt > flows.csv
"""
import argparse
import ctypes
import os
import re
import struct
import subprocess

# REMYLINE_ENOUGH and REMYLINE_FLOWS_ENOUGH of remyline.h
ENOUGH = {"remyline_print": 8390784, "remyline_flows": 2176}


def by_library(path, name):
    """A function from a description to what is printed for it, in this process."""
    call = getattr(ctypes.CDLL(os.path.abspath(path)), name)
    enough = ENOUGH[name]
    call.restype = ctypes.c_size_t
    call.argtypes = [ctypes.c_char_p, ctypes.c_size_t, ctypes.c_void_p, ctypes.c_size_t]
    out = ctypes.create_string_buffer(enough)

    def run(text):
        n = call(text, len(text), out, enough)
        if n == 0:
            raise SystemExit("table.py: the buffer is too small")
        return ctypes.string_at(out, n)

    return run


def by_program(path):
    """The same by starting the program."""
    return lambda text: subprocess.run([path], input=text, stdout=subprocess.PIPE, check=True).stdout


def described(base, limit, window, seed):
    """The description with another limit, policy and seed."""
    for key, value in (("limit", limit), ("policy", f"grown:2:{window}"), ("seed", seed)):
        base = re.sub(rf"(?m)^{key}=.*", f"{key}={value}", base)
    return base.encode()


def row(printed):
    """What the table has of a run, by column, from its lines, or from its last lines."""
    printed = printed.decode()
    stop = re.search(r"(?m)^stop=(\d+)", printed)[1]
    flows = re.findall(r"(?m)^flow=\d+ sent=(\d+) counted=(\d+) rate=(\S+)", printed)
    if not flows:
        return dict(stop=stop, sent="-", counted="-", full="-", rate="-")
    rates = [struct.unpack(">d", bytes.fromhex(rate))[0] for _, _, rate in flows if rate != "-"]
    total = 0.0  # one after the other, as in table.c; sum() rounds otherwise in some versions
    for rate in rates:
        total += rate
    mean = f"{total / len(rates):.3f}" if rates else "-"
    sent, counted = (sum(int(flow[i]) for flow in flows) for i in (0, 1))
    return dict(stop=stop, sent=sent, counted=counted, full=printed.count(" mark=F "), rate=mean)


def main():
    parser = argparse.ArgumentParser(description=__doc__, formatter_class=argparse.RawDescriptionHelpFormatter)
    way = parser.add_mutually_exclusive_group(required=True)
    way.add_argument("--library", help="the shared library (README.md has the command that makes it)")
    way.add_argument("--program", help="the program remyline")
    parser.add_argument("--flows", action="store_true", help="leave out the records and what is counted in them")
    parser.add_argument("description", help="the file of a description")
    given = parser.parse_args()
    name = "remyline_flows" if given.flows else "remyline_print"
    run = by_library(given.library, name) if given.library else by_program(given.program)
    columns = "stop,sent,counted,rate" if given.flows else "stop,sent,counted,full,rate"
    with open(given.description, newline="") as file:
        base = file.read()
    print("limit,window,seed," + columns)
    for limit in range(22400, 224001, 22400):
        for window in range(2, 21, 2):
            for seed in range(1, 11):
                has = row(run(described(base, limit, window, seed)))
                print(limit, window, seed, *(has[column] for column in columns.split(",")), sep=",")


if __name__ == "__main__":
    main()
