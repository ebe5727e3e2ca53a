#!/usr/bin/env python3
"""The independent check of `trials`: it prints what that program must print.

    tools/trials.py               print it
    tools/trials.py --check FILE  compare it with FILE; exit 1 if they differ

The reducer is played by its rules in words (docs/MACHINE.md, "The machine's
rules"), and what it promises is checked by brute force on every run.

A subset is a rising list of parts, and its index is the sum of 2^p over its
parts p. A judge is a function from that index to a number: 1 means that the
subset fails, anything else that it doesn't. A machine is a generator: it yields
the subset it asks of, is sent the judge's number, and returns what is left, or
SOUND.
"""

import argparse
import sys
from functools import lru_cache
from itertools import zip_longest

SOUND = "sound"
NEVER = "never"   # the run was stopped
LIMIT = 5000      # after so many questions
FEW = 9           # of so many parts every subset is tried


def demand(holds, *told):
    """An assertion that stays when Python is told to leave assertions out."""
    if not holds:
        raise AssertionError(" ".join(str(x) for x in told))


# Subsets and judges

def index(subset):
    return sum(1 << p for p in subset)


def parts_of(number, n):
    return [p for p in range(n) if number >> p & 1]


def is_subset(subset, n):
    """Rising, and nothing but parts."""
    return (all(0 <= p < n for p in subset)
            and all(a < b for a, b in zip(subset, subset[1:])))


def without(subset, i):
    """All but the i-th member."""
    return subset[:i] + subset[i + 1:]


@lru_cache(maxsize=None)
def containers(n):
    """For each subset a number with a bit for each subset that contains it."""
    return [sum(1 << t for t in range(2 ** n) if s & t == s) for s in range(2 ** n)]


def is_monotone(n, judge):
    """Over all pairs: whatever contains what fails, fails."""
    fails = [s for s in range(2 ** n) if judge(s) == 1]
    failing = sum(1 << s for s in fails)
    above = containers(n)
    return all(above[s] & ~failing == 0 for s in fails)


# The reducer

def cut(lo, r, found, begun, spent):
    """How many of the row's r members the next question keeps."""
    if lo == 0 and found > 0 and r > 4 and spent <= 13 * found:
        g = max(1, 7 * (begun - r) // (10 * found))
        return 0 if 4 * g >= r else r - g
    return lo + (r - lo - 1) // 2


def reducer(n, failing=(1,)):
    """`failing` are the answers that it takes for "fails"."""
    held = list(range(n))
    if (yield held) not in failing:
        return SOUND
    while True:
        # A pass. What is held is the row, which is undecided, then what is needed.
        row, needed = held, []
        begun = len(held)
        lo = spent = sure = 0
        while row:
            while lo < len(row):
                c = cut(lo, len(row), len(needed), begun, spent)
                demand(lo <= c < len(row), "a wrong cut:", c)
                if (yield row[:c] + needed) in failing:
                    row, sure = row[:c], 0
                else:
                    lo = c + 1
                spent += 1
            if row:
                row, needed = row[:-1], row[-1:] + needed
                lo = 0
                sure += 1
        # The first `sure` members are sure; the others are tried out.
        held = needed
        for i in range(sure, len(held)):
            if (yield without(held, i)) in failing:
                held = without(held, i)
                break
        else:
            return held


# Runs, and what is promised of them

def play(machine, n, judge):
    """What was asked, and how it ended: SOUND, NEVER or the subset that is left."""
    asked = []
    try:
        question = next(machine)
        while len(asked) < LIMIT:
            demand(is_subset(question, n), "asked of no subset:", question)
            asked.append(question)
            question = machine.send(judge(index(question)))
    except StopIteration as end:
        return asked, end.value
    return asked, NEVER


def finding(n, judge, asked, left):
    """The first promise that a run that isn't "sound" breaks, or None."""
    if left == NEVER:
        return "it never ended"
    if not is_subset(left, n):
        return "what is left is no subset of the parts"
    if judge(index(left)) != 1:
        return "what is left doesn't fail"
    if any(judge(index(without(left, i))) == 1 for i in range(len(left))):
        return "something can be left out"
    if len(asked) > 15 * (n + 1) ** 2:
        return "too many questions"
    return None


def inspect(n, judge, monotone, asked, left):
    """Demand all that is promised of a run of the reducer."""
    run = f"n = {n}, asked {asked}, left {left}:"
    demand((left == SOUND) == (judge(2 ** n - 1) != 1), run, "sound or not")
    if left == SOUND:
        demand(asked == [list(range(n))], run, "sound, but not after one question")
        return
    found = finding(n, judge, asked, left)
    demand(found is None, run, found)
    if monotone:
        demand(len(asked) <= 14 * (len(left) + 1), run, "too many for monotone")
    if monotone and n <= FEW:
        whole = index(left)
        for s in range(whole):
            demand(s & whole != s or judge(s) != 1, run, "something smaller fails")


# The judges that draw, and the sections

def draws(x=88172645463325252):
    """The xorshift64 generator."""
    while True:
        x ^= (x << 13) % 2 ** 64
        x ^= x >> 7
        x ^= (x << 17) % 2 ** 64
        yield x >> 32


def random_judges(source):
    for n in range(5, 10):
        for j in range(1000):
            t = 1 + j % 7
            drawn = [next(source) for _ in range(2 ** n)]
            table = [1 if r % 8 < t else r // 8 % 2 * 2 for r in drawn]
            table[-1] = 1
            yield n, table.__getitem__


def by_sets(sets):
    """Fails what contains all of one of the sets, and so is monotone."""
    return lambda s: int(any(s & g == g for g in sets))


def judges_by_sets(source):
    for n in [*range(1, 10), 16, 32, 64]:
        for j in range(480 if n <= FEW else 240):
            yield n, by_sets([index([p for p in range(n) if next(source) % 16 < 1 + j % 8])
                              for _ in range(1 + j % 3)])


def line(*columns):
    return " ".join(f"{c:>{w}}" for c, w in zip(columns, (2, 2, 7, 5, 6, 9, 5, 6)))


def section(title, judges):
    """The lines of a section. Judges of many parts are by given sets."""
    rows = {}
    for n, judge in judges:
        monotone = n > FEW or is_monotone(n, judge)
        asked, left = play(reducer(n), n, judge)
        inspect(n, judge, monotone, asked, left)
        k = -1 if left == SOUND else len(left)
        row = rows.setdefault((n, k), [0, 0, 0, 0])
        row[0] += 1
        row[1] = max(row[1], len(asked))
        if monotone:
            row[2] += 1
            row[3] = max(row[3], len(asked))
    lines = [title, line("n", "k", "judges", "most", "bound", "monotone", "most", "bound")]
    for (n, k), (count, most, count_mono, most_mono) in sorted(rows.items()):
        name, bound, bound_mono = ("-", 1, 1) if k < 0 else (k, 15 * (n + 1) ** 2, 14 * (k + 1))
        lines.append(line(n, name, count, most, bound, count_mono, most_mono, bound_mono))
    return lines + [""]


# Machines that fail. All but `asks_again` begin where all n parts failed.

def tries_out(n, tries):
    """Tries out so many parts, each once."""
    held = list(range(n))
    for p in range(tries):
        smaller = [q for q in held if q != p]
        if (yield smaller) == 1:
            held = smaller
    return held


def halves(n):
    """Goes on with a half that fails, while there is one."""
    held = list(range(n))
    while len(held) > 1:
        middle = len(held) // 2
        if (yield held[:middle]) == 1:
            held = held[:middle]
        elif (yield held[middle:]) == 1:
            held = held[middle:]
        else:
            break
    return held


def asks_again(n):
    while True:
        yield list(range(n))


def both_ends(n):
    """What the shortest beginning and the shortest end that fail have in common."""
    everything = list(range(n))
    lo, hi = 0, n
    while lo < hi:
        mid = (lo + hi) // 2
        if (yield everything[:mid]) == 1:
            hi = mid
        else:
            lo = mid + 1
    beginning = hi
    lo, hi = 0, n
    while lo < hi:
        mid = (lo + hi + 1) // 2
        if (yield everything[mid:]) == 1:
            lo = mid
        else:
            hi = mid - 1
    return everything[lo:beginning]


def tries_all(n):
    """Asks of every subset, and tells the first of the smallest that fail."""
    best = list(range(n))
    for s in range(2 ** n - 1):
        subset = parts_of(s, n)
        if (yield subset) == 1 and len(subset) < len(best):
            best = subset
    return best


def after_all(n, machine):
    """Asks of all n parts; if they fail the machine goes on."""
    if (yield list(range(n))) != 1:
        return SOUND
    return (yield from machine)


def chain(subset):
    """2 needs 1 needs 0: where one that is needed isn't there, one can't tell."""
    if (1 in subset and 0 not in subset) or (2 in subset and 1 not in subset):
        return 2
    return int(2 in subset)


JUDGES = {   # what is told of the judge: the number of parts, and what it says
    "fails with 1 and 4 of 6": (6, lambda x: int(1 in x and 4 in x)),
    "fails with 1 and 4 of 12": (12, lambda x: int(1 in x and 4 in x)),
    "fails 0 1 2 and 0 2 and 2 of 3": (3, lambda x: int(x in ([0, 1, 2], [0, 2], [2]))),
    "2 needs 1 needs 0 of 3": (3, chain),
    "fails with 0 or 5 of 6": (6, lambda x: int(0 in x or 5 in x)),
}

MACHINES = [   # the name, the judge, the machine for n parts
    ("lost count", "fails with 1 and 4 of 6",
     lambda n: after_all(n, tries_out(n, 3))),   # four questions with the first
    ("no half fails", "fails with 1 and 4 of 6", lambda n: after_all(n, halves(n))),
    ("tried once", "fails 0 1 2 and 0 2 and 2 of 3", lambda n: after_all(n, tries_out(n, n))),
    ("unclear fails", "2 needs 1 needs 0 of 3", lambda n: reducer(n, (1, 2))),
    ("asks again", "fails with 1 and 4 of 6", asks_again),
    ("from both ends", "fails with 0 or 5 of 6", lambda n: after_all(n, both_ends(n))),
    ("tries all", "fails with 1 and 4 of 12", lambda n: after_all(n, tries_all(n))),
]


def play_told(machine, told):
    """A machine against one of JUDGES: the number of parts, the judge and the run."""
    n, says = JUDGES[told]
    judge = lambda s: says(parts_of(s, n))
    return n, judge, *play(machine(n), n, judge)


# The whole

def check_example():
    """The run that docs/MACHINE.md writes out."""
    *_, asked, left = play_told(reducer, "fails with 1 and 4 of 6")
    words = "012345 01 0123 01234 04 014 14 4 1".split()
    demand(asked == [[int(p) for p in word] for word in words], "the example:", asked)
    demand(left == [1, 4], "the example: left", left)


def output():
    check_example()
    source = draws()   # one for both sections that draw
    lines = []
    for title, judges in [
        ("every judge of three parts",
         ((3, [i // 3 ** s % 3 for s in range(8)].__getitem__) for i in range(3 ** 8))),
        ("every judge of four parts that fails all four",
         ((4, ([i >> s & 1 for s in range(15)] + [1]).__getitem__) for i in range(2 ** 15))),
        ("random judges", random_judges(source)),
        ("judges by given sets", judges_by_sets(source)),
    ]:
        lines += section(title, judges)
    lines += ["each transcript was inspected, and nothing was found", "", "machines that fail"]
    for name, told, machine in MACHINES:
        n, judge, asked, left = play_told(machine, told)
        demand(left != SOUND, name, "ended sound")
        found = finding(n, judge, asked, left)
        demand(found is not None, name, "breaks no promise")
        lines.append(f"{name}, {told}: {found}")
    return "\n".join(lines) + "\n"


def compare(ours, theirs):
    """Print the first line that differs; 1 if there is one."""
    pairs = zip_longest(ours.split("\n"), theirs.split("\n"))   # None past the end
    for number, (expected, there) in enumerate(pairs, 1):
        if expected != there:
            print(f"line {number} differs\n  expected: {expected!r}\n  in file:  {there!r}")
            return 1
    print("the same")
    return 0


def main():
    options = argparse.ArgumentParser(description="The independent check of `trials`.")
    options.add_argument("--check", metavar="FILE", help="compare the output with FILE")
    path = options.parse_args().check
    if path is None:
        sys.stdout.write(output())
        return 0
    with open(path, encoding="utf-8", errors="backslashreplace", newline="") as file:
        return compare(output(), file.read())


if __name__ == "__main__":
    sys.exit(main())
