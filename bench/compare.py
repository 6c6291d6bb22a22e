#!/usr/bin/env python3
"""Runs commands on one input, in turn, five times each; they have to print the same. Prints the median of each one's
processor times (user and system), and the ratio of the first to the second.

usage: compare.py INPUT "NAME: WORD .." "NAME: WORD .."
"""
import resource
import statistics
import subprocess
import sys


def spent(words, path):
    before = resource.getrusage(resource.RUSAGE_CHILDREN)
    with open(path, "rb") as given:
        printed = subprocess.run(words, stdin=given, stdout=subprocess.PIPE, check=True).stdout
    after = resource.getrusage(resource.RUSAGE_CHILDREN)
    return after.ru_utime + after.ru_stime - before.ru_utime - before.ru_stime, printed


def main():
    path = sys.argv[1]
    runs = [(name, words.split()) for name, words in (run.split(": ", 1) for run in sys.argv[2:])]
    times = {name: [] for name, _ in runs}
    texts = set()
    for _ in range(5):
        for name, words in runs:
            time, printed = spent(words, path)
            times[name].append(time)
            texts.add(printed)
    if len(texts) != 1:
        sys.exit("they print different texts")
    print("the same text of", len(texts.pop()), "octets")
    for name, _ in runs:
        print(f"{name}: {statistics.median(times[name]):.3f} s of processor time")
    first, second = (statistics.median(times[name]) for name, _ in runs)
    print(f"ratio {first / second:.2f}")


main()
