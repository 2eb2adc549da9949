"""Races the module serde_qs against urllib.parse on flat querystrings, and prints a row for each: the module's time, divided by the other's.

usage: library.py [--quick]
"""

import sys
import time
import urllib.parse

import serde_qs

ROUNDS = 21
ROUND_SECONDS = 0.01


def flat(count, value):
    return "&".join(f"name{at}={value}" for at in range(count))


CASES = {
    "1 pair": flat(1, "somevalue"),
    "10 pairs": flat(10, "somevalue"),
    "10 pairs with an escape each": flat(10, "some+value"),
    "1,000 pairs": flat(1000, "somevalue"),
}


def by_urllib(query):
    return dict(urllib.parse.parse_qsl(query))


def seconds(call, query, times):
    began = time.process_time()
    for _ in range(times):
        call(query)
    return time.process_time() - began


def share(query):
    """The best of the rounds of each, which are made in turn."""
    calls = (serde_qs.parse, by_urllib)
    times = max(1, int(ROUND_SECONDS / (seconds(by_urllib, query, 10) / 10)))
    ours, other = (min(rounds) for rounds in zip(*([seconds(call, query, times) for call in calls] for _ in range(ROUNDS))))
    return ours / other


wrong = [name for name, query in CASES.items() if serde_qs.parse(query) != by_urllib(query)]
if wrong:
    sys.exit(f"  FAILED: {', '.join(wrong)}")
if sys.argv[1:2] != ["--quick"]:
    for name, query in CASES.items():
        print(f"| Python, {name} | {share(query):.2f} |")
