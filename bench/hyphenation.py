#!/usr/bin/env python3
"""Times hyphenation with 50, 500 and 5,000 patterns over 10,000 words.

Run it as `bench/hyphenation.py PROGRAM`, PROGRAM being the built crate `conformance`. Each part of
a word is looked up by its letters, so the number of look-ups does not grow with the number of
patterns: the script prints the time for each number of patterns, and its ratio to that of 50. What
is left of a growth are the parts that are found, and a table that no longer fits the first cache.
"""

import random
import resource
import subprocess
import sys

COUNTS = (50, 500, 5000)
WORDS = 10_000
# The words are gone through this many times, for a time that can be measured.
ROUNDS = 10
TURNS = 9
LETTERS = "etaoinshrdlucmfwypvbgk"
# How many of a hundred patterns have 2, 3, .. 8 letters.
LENGTHS = (5, 20, 40, 25, 7, 2, 1)


def word(source, least, most):
    return "".join(source.choice(LETTERS) for _ in range(source.randint(least, most)))


def pattern(source, letters):
    """The letters with one to two values among them."""
    values = [""] * (len(letters) + 1)
    for _ in range(source.randint(1, 2)):
        values[source.randrange(len(values))] = str(source.randint(1, 5))
    text = values[0]
    for letter, value in zip(letters, values[1:]):
        text += letter + value
    return text


def patterns(source, count):
    """Patterns as long as those of a language. The first has the most letters, so that in all sets the
    same parts of a word are looked up."""
    found = {}
    while len(found) < count:
        length = source.choices(range(2, 9), LENGTHS)[0] if found else 8
        letters = word(source, length, length)
        found.setdefault(letters, pattern(source, letters))
    return " ".join(found.values())


def line(rules, words):
    asked = "; ".join(f"word {w} 2 3" for w in words)
    return f"hyphenation patterns {rules}; exceptions ; {asked}\n".encode()


def least_time(program, text):
    """The least processor time of several runs on the text, in seconds."""
    best = None
    for _ in range(TURNS):
        before = resource.getrusage(resource.RUSAGE_CHILDREN)
        answer = subprocess.run([program], input=text, stdout=subprocess.PIPE, check=True).stdout
        after = resource.getrusage(resource.RUSAGE_CHILDREN)
        if answer.startswith(b"unknown"):
            sys.exit("the program does not know the line")
        spent = after.ru_utime + after.ru_stime - before.ru_utime - before.ru_stime
        best = spent if best is None else min(best, spent)
    return best


def main():
    if len(sys.argv) != 2:
        sys.exit(__doc__)
    program = sys.argv[1]
    source = random.Random(1983)
    words = [word(source, 4, 14) for _ in range(WORDS)]
    times = []
    for count in COUNTS:
        rules = patterns(source, count)
        whole = least_time(program, line(rules, words * ROUNDS))
        table = least_time(program, line(rules, words[:1]))
        spent = (whole - table) / ROUNDS
        times.append(spent)
        print(f"{count} patterns: {WORDS} words {1000 * spent:.1f} ms, table {1000 * table:.1f} ms")
    for count, spent in zip(COUNTS, times):
        print(f"ratio of {count} to {COUNTS[0]} patterns: {spent / times[0]:.2f}")


if __name__ == "__main__":
    main()
