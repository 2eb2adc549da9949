"""Writes again and again how many seconds of a processor the proofs of tests and their runs have taken below a process, until that ends.

    tests_took.py PROCESS FILE

It looks at /proc every two seconds, so it misses the last two of each check. Where that isn't there, or anything else goes wrong, it writes nothing more.
"""

import os
import sys
import time

EVERY = 2
SECOND = os.sysconf("SC_CLK_TCK")


def processes():
    """Returns of each process its parent, when it began, the time of it and of those below it that have ended, and its words."""
    found = {}
    for number in filter(str.isdigit, os.listdir("/proc")):
        try:
            with open(f"/proc/{number}/stat", errors="replace") as file:
                stat = file.read().rpartition(")")[2].split()
            with open(f"/proc/{number}/cmdline", errors="replace") as file:
                words = file.read().split("\0")
        except OSError:
            continue  # It has ended.
        found[int(number)] = int(stat[1]), stat[19], sum(map(int, stat[11:15])), words
    return found


def is_of_tests(words):
    return "--crate-name" in words and "--test" in words or words[0].endswith("_tests")


def tests_below(top, found):
    """Returns the outermost processes of tests, each with the time of all those below it."""
    below = {}
    for number, (parent, *_) in found.items():
        below.setdefault(parent, []).append(number)

    def of(number):
        return found[number][2] + sum(of(it) for it in below.get(number, []))

    taken, left = {}, [*below.get(top, [])]
    while left:
        number = left.pop()
        if is_of_tests(found[number][3]):
            taken[number, found[number][1]] = of(number)
        else:
            left += below.get(number, [])
    return taken


def main(top, file):
    most = {}
    while True:
        found = processes()
        if top not in found:
            return
        for key, ticks in tests_below(top, found).items():
            most[key] = max(ticks, most.get(key, 0))
        with open(f"{file}.new", "w") as out:
            out.write(f"{sum(most.values()) / SECOND:.0f}\n")
        os.replace(f"{file}.new", file)
        time.sleep(EVERY)


main(int(sys.argv[1]), sys.argv[2])
