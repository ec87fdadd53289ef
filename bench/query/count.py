#!/usr/bin/env python3
"""The engine's count: beside its search on the boxes of search.py in which nothing is found, so that both test the same
prefixes; on boxes that are full of points; and beside isl's count of points.

Run by run.sh from the repository's root: count.py ROUNDS FOLDER ENGINE [before=BEFORE] [NAME=PROGRAM..]
FOLDER has the boxes of the workloads (searches.c), ENGINE and BEFORE are count.c with libprobe.a, here and of another
commit, each PROGRAM points_isl.c with a build of isl. The engine's calls take turns in one process, the least of the rounds counts; the second program and isl
run once. Numbers of points and tallies must agree. Status 1: over all boxes the count takes more than a tenth longer
than the search."""
import statistics
import sys

from search import AXES, BASIC_SET, SECOND, WORST
from search import call, child_seconds, division, equality, inequality, run, unit, workload

ISL_SECONDS = 10  # as long as one count by isl may take
WITHIN = 1.10     # count over search
WORKLOADS = ["tiny", "slots"]


def box(n, bits, sides):
    """As search.py's call, over n axes."""
    line = call(bits, list(sides) + [1] * (AXES - n)).split()
    line[1] = str(n)
    return " ".join(line) + "\n"


def windows(count):
    """Basic sets with a window of ten values on the first axis each, one value further each: up to ten hold a point."""
    return b"".join(BASIC_SET + inequality(-i, unit(0)) + inequality(i + 9, unit(0, -1)) for i in range(count))


def half_hours():
    """x2 below 30·(floor(x1 / 30) + 1): loads that grow with each half hour."""
    return BASIC_SET + division(30, 0, unit(0)) + inequality(29, unit(1, -1), [30])


def every_other():
    """x2 is twice its half, rounded down."""
    return BASIC_SET + division(2, 0, unit(1)) + equality(0, unit(1), [-2])


def bounds(n, sides):
    """Bounds on every axis that hold in the whole box."""
    return b"".join(inequality(0, unit(i)) + inequality(side - 1, unit(i, -1)) for i, side in zip(range(n), sides))


TENS = [10] * 5
FULL = [
    ("no rules, a side of 64", box(2, BASIC_SET, [10000, 64])),
    ("no rules, sides of ten", box(5, BASIC_SET, TENS)),
    ("no rules, sides of two", box(8, BASIC_SET, [1000] + [2] * 7)),
    ("bounds that hold, sides of ten", box(5, BASIC_SET + bounds(5, TENS), TENS)),
    ("bounds that hold, 32 times", box(5, (BASIC_SET + bounds(5, TENS)) * 32, TENS)),
    ("32 windows that overlap", box(3, windows(32), [41, 64, 64])),
    ("a division, half hours", box(2, half_hours(), [720, 64])),
    ("a division, every other value", box(2, every_other(), [64, 5000])),
]


def show(row):
    print("| " + " | ".join(map(str, row)) + " |", flush=True)


def head(*names):
    show(names)
    print("|" + "---|" * len(names))


def figure(x):
    return f"{x:.3g}" if x < 100 else f"{x:,.0f}"


def as_counts(calls):
    return [line.replace("search ", "count ", 1) for line in calls]


def run_second(calls):
    """Word, points and tally of each count, and the seconds of them all."""
    start = child_seconds()
    answers = [line.split() for line in run([SECOND, "calls"], as_counts(calls)).stdout.splitlines()]
    seconds = child_seconds() - start
    return [(word, int(rest[0]) if word == "count" else 0, int(rest[-1])) for word, *rest in answers], seconds


class Asked:
    """The answers and seconds of the search, the count and the counts by one axis of some boxes."""

    def __init__(self, engine, rounds, calls):
        lines = [line.split() for line in run([engine, str(rounds)], calls).stdout.splitlines()]
        parts = [[line[i:i + 4] for line in lines] for i in (0, 4, 8)]
        answers = [[(word, int(points), int(tally)) for word, points, tally, _ in part] for part in parts]
        self.found, self.counted, self.by_axis = answers
        self.seconds = [[float(line[3]) for line in part] for part in parts]
        self.expected, self.second = run_second(calls)
        assert self.counted == self.expected, first_difference(self.counted, self.expected)
        assert self.by_axis == self.expected, first_difference(self.by_axis, self.expected)

    def prefixes(self):
        return sum(tally for _, _, tally in self.counted)

    def points(self):
        return sum(points for _, points, _ in self.counted)

    def spent(self):
        return sum(word == "spent" for word, _, _ in self.counted)

    def nanoseconds(self):
        """Of the three calls and of the second program, a prefix."""
        return [1e9 * sum(seconds) / self.prefixes() for seconds in self.seconds + [[self.second]]]


def first_difference(one, other):
    return next(pair for pair in zip(one, other) if pair[0] != pair[1])


def beside_search(engine, rounds):
    """Whether the count takes no longer than it may over all boxes."""
    head("boxes", "of them spent", "prefixes", "search: ns", "count: ns", "over search", "counts: ns", "over search",
         "second: ns")
    sums = [0, 0, 0, 0, 0, 0, 0]
    for name, _, calls in WORST:
        asked = Asked(engine, rounds, calls)
        tallies = [(word, tally) for word, _, tally in asked.found]
        same = [("none" if word == "count" else word, tally) for word, _, tally in asked.counted]
        assert tallies == same, first_difference(tallies, same)
        row = [len(calls), asked.spent(), asked.prefixes()] + list(map(sum, asked.seconds)) + [asked.second]
        beside_row(name, row)
        sums = [a + b for a, b in zip(sums, row)]
    beside_row("all", sums)
    return sums[4] <= WITHIN * sums[3]


def beside_row(name, row):
    calls, spent, prefixes, *seconds = row
    search, count, counts, second = (1e9 * s / prefixes for s in seconds)
    times = [figure(count), f"{count / search:.3f}", figure(counts), f"{counts / search:.3f}", figure(second)]
    show([f"{name}: {calls}", spent, f"{prefixes:,}", figure(search)] + times)


def full_boxes(engine, rounds):
    head("boxes full of points", "points", "prefixes", "count: ns a prefix", "counts: ns a prefix", "second: ns a prefix")
    for name, line in FULL:
        asked = Asked(engine, rounds, [line])
        show([name, f"{asked.points():,}", f"{asked.prefixes():,}"] + [figure(x) for x in asked.nanoseconds()[1:]])


def told(engine, calls):
    """Count and counts of each box: the answers, and the seconds."""
    lines = [line.split() for line in run([engine, "1"], calls).stdout.splitlines()]
    return [(line[4:7], line[8:11]) for line in lines], [sum(float(line[i]) for line in lines) for i in (7, 11)]


def beside_before(engine, before, rounds, folder):
    """Both engines in turns, of each the least of the rounds."""
    head("boxes", "prefixes", "before, count: ns", "count: ns", "before, counts: ns", "counts: ns")
    families = [(name, calls) for name, _, calls in WORST] + [(name, [line]) for name, line in FULL]
    for name, calls in families + [(name, workload(folder, name)) for name in WORKLOADS]:
        least = {before: [float("inf")] * 2, engine: [float("inf")] * 2}
        for _ in range(rounds):
            answers = []
            for program in (before, engine):
                answer, seconds = told(program, calls)
                answers.append(answer)
                least[program] = list(map(min, least[program], seconds))
            assert answers[0] == answers[1], first_difference(*answers)
        prefixes = sum(int(count[2]) for count, _ in answers[0])
        show([f"{name}: {len(calls)}", f"{prefixes:,}"]
             + [figure(1e9 * least[program][i] / prefixes) for i in (0, 1) for program in (before, engine)])


def run_isl(program, calls):
    """Points and seconds of each count; nothing where it took too long."""
    answers = [line.split() for line in run([program, str(ISL_SECONDS)], calls).stdout.splitlines()]
    return [None if points == "time" else (int(points), float(seconds)) for points, seconds in answers]


def counted_by_all(asked, others):
    """The places of the boxes that the engine counts and each of the others; all of them find as many points."""
    def counts(i):
        return asked.counted[i][0] == "count" and all(other[i] for other in others)

    good = [i for i in range(len(asked.counted)) if counts(i)]
    for i in good:
        assert all(other[i][0] == asked.counted[i][1] for other in others), (asked.counted[i], [o[i] for o in others])
    return good


def beside_isl(engine, rounds, folder, peers):
    """Medians over the boxes that all of them count."""
    head("boxes", "counted by all", "points", "prefixes", *(f"{name}: µs" for name, _ in peers), "pitsets: µs", "ratio")
    families = [(name, workload(folder, name)) for name in WORKLOADS] + [(name, [line]) for name, line in FULL]
    for name, calls in families:
        asked = Asked(engine, rounds, calls)
        others = [run_isl(program, calls) for _, program in peers]
        good = counted_by_all(asked, others)
        if not good:
            show([f"{name}: {len(calls)}", 0] + [""] * (4 + len(peers)))
            continue
        times = [statistics.median(1e6 * other[i][1] for i in good) for other in others]
        ours = statistics.median(1e6 * asked.seconds[1][i] for i in good)
        points, prefixes = (sum(asked.counted[i][k] for i in good) for k in (1, 2))
        show([f"{name}: {len(calls)}", len(good), f"{points:,}", f"{prefixes:,}"]
             + [figure(x) for x in times + [ours, min(times) / ours]])


def main(rounds, folder, engine, *peers):
    peers = dict(peer.split("=", 1) for peer in peers)
    before = peers.pop("before", None)
    good = beside_search(engine, rounds)
    print()
    full_boxes(engine, rounds)
    if before:
        print()
        beside_before(engine, before, rounds, folder)
    if peers:
        print()
        beside_isl(engine, rounds, folder, list(peers.items()))
    if not good:
        print(f"the count takes more than {WITHIN} times as long as the search")
    return 0 if good else 1


if __name__ == "__main__":
    sys.exit(main(int(sys.argv[1]), *sys.argv[2:]))
