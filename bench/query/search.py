#!/usr/bin/env python3
"""The engine's first-point search, also where 1,000,000 prefixes are tested, against the second program.

Run by run.sh from the repository's root: search.py ROUNDS FOLDER ENGINE [BEFORE]
FOLDER has the searches of the workloads (searches.c), ENGINE and BEFORE are search.c with libprobe.a, here and of another
commit. CPU nanoseconds a prefix are the least of the rounds, in which the two take turns; the second program runs once.
Answers and tallies must agree. With COUNT set also instructions a prefix, by valgrind and with a smaller limit."""
import os
import random
import re
import resource
import struct
import subprocess
import sys

AXES = 8
LIMIT = 1000000
COUNTED = 50000  # the limit where instructions are counted
BASIC_SET = b"\x11"
SECOND = "tools/target/release/second"
WORKLOADS = ["dispatch", "limit", "big"]


def padded(numbers):
    return list(numbers) + [0] * (AXES - len(numbers))


def rule(command, c, a, d=()):
    return bytes([command]) + struct.pack("<i8h8h", c, *padded(a), *padded(d))


def equality(c, a, d=()):
    return rule(0x13, c, a, d)


def inequality(c, a, d=()):
    return rule(0x14, c, a, d)


def division(d, c, a):
    return b"\x12" + struct.pack("<Hi8h", d, c, *padded(a))


def unit(i, v=1):
    return [v if j == i else 0 for j in range(AXES)]


LAST = AXES - 1


def between(v):
    """2·x8 = 2·v + 1: met by no value, but not ruled out while x8 is open from v or below to above v."""
    return equality(-2 * v - 1, unit(LAST, 2))


def call(bits, sides):
    """Every side from 0 on, with so many values."""
    return " ".join([f"search {AXES}", bits.hex(), str(LIMIT)] + ["0"] * AXES + [str(side - 1) for side in sides]) + "\n"


def permits(seed, share):
    """20 basic sets, up to two divisions each; bounds on a share of the axes, a slanted rule, and a parity that no point
    meets, so that the walk goes on."""
    r = random.Random(seed)
    out = b""
    for _ in range(20):
        out += BASIC_SET
        count = r.randint(0, 2)
        for _ in range(count):
            out += division(r.choice([7, 10, 30]), r.randint(-5, 5), unit(r.randrange(8)))
        for i in range(8):
            low = r.randint(0, 6)
            if r.random() < share:
                out += inequality(-low, unit(i))
            if r.random() < share:
                out += inequality(low + r.randint(2, 5), unit(i, -1))
        slant = [r.randint(-3, 3) for _ in range(7)] + [r.choice([-2, 2])]
        out += inequality(r.randint(-5, 20), slant, unit(0, r.randint(-2, 2)) if count else [0] * 8)
        even = [2 * r.randint(-2, 2) for _ in range(6)] + [-2, 2]
        out += equality(2 * r.randint(0, 3) + 1, even)
    return call(out, [10] * AXES)


def stairs():
    """x8 ≥ 1, x8 ≥ 2, .., x8 ≥ 9: each value is ruled out by the next rule, the last one by a rule behind them."""
    return b"".join(inequality(-v, unit(LAST)) for v in range(1, 10)) + between(8)


def bounded():
    """Two bounds that hold on each axis but the first, then the rule that no value meets."""
    return b"".join(inequality(0, unit(i)) + inequality(9, unit(i, -1)) for i in range(1, AXES)) + between(0)


def every_other():
    """2·(x8 mod 2) = 1: at even values below 0, at odd ones above."""
    return division(2, 0, unit(LAST)) + equality(-1, unit(LAST, 2), [-4])


def late(values):
    """floor(x8 / 7) + floor(x8 / 10) at its greatest over the side, which only the last few values reach."""
    most = (values - 1) // 7 + (values - 1) // 10
    return division(7, 0, unit(LAST)) + division(10, 0, unit(LAST)) + inequality(-most, [], [1, 1]) + between(values - 2)


TENS = [10] * AXES
PAIRS = [8000] + [2] * LAST
ONES = [200000] + [1] * (LAST - 1) + [2]
LONG = [10] * LAST + [1000]
# name, basic sets alive, calls; but for the permits every prefix passes that leaves x8 open, and no other one
WORST = [
    ("permits, bounds on every side", "up to 20", [permits(seed, 1.0) for seed in range(4)]),
    ("permits, bounds on 3 sides in 5", "up to 20", [permits(seed, 0.6) for seed in range(4)]),
    ("a linear rule, sides of ten", "1", [call(BASIC_SET + between(4), TENS)]),
    ("linear rules as stairs, sides of ten", "1", [call(BASIC_SET + stairs(), TENS)]),
    ("linear rules, sides of two", "1", [call(BASIC_SET + bounded(), PAIRS)]),
    ("linear rules, sides of one, the last of two", "1", [call(BASIC_SET + bounded(), ONES)]),
    ("a division, runs of one", "1", [call(BASIC_SET + every_other(), TENS)]),
    ("two growing divisions, a side of 1,000", "1", [call(BASIC_SET + late(1000), LONG)]),
    ("a linear rule each, sides of ten", "32", [call(b"".join(BASIC_SET + between(b % 9) for b in range(32)), TENS)]),
    ("a division each, runs of one", "32", [call((BASIC_SET + every_other()) * 32, TENS)]),
]


def workload(folder, name):
    with open(os.path.join(folder, name + ".calls"), encoding="ascii") as file:
        return list(file)


def child_seconds():
    u = resource.getrusage(resource.RUSAGE_CHILDREN)
    return u.ru_utime + u.ru_stime


def run(command, calls):
    return subprocess.run(command, input="".join(calls), capture_output=True, text=True, check=True)


def run_second(calls):
    """Word and tally of each answer, and the seconds of them all."""
    start = child_seconds()
    answers = [line.split() for line in run([SECOND, "calls"], calls).stdout.splitlines()]
    return [(words[0], int(words[-1])) for words in answers], child_seconds() - start


def run_engine(driver, calls):
    """The same, with the seconds of each."""
    answers = [line.split() for line in run([driver], calls).stdout.splitlines()]
    return [(word, int(tally)) for word, tally, _ in answers], [float(seconds) for _, _, seconds in answers]


def instructions(driver, calls):
    """The prefixes tested with the smaller limit, and callgrind's count."""
    fewer = [line.replace(f" {LIMIT} ", f" {COUNTED} ") for line in calls]
    command = ["valgrind", "--tool=callgrind", "--toggle-collect=timed", "--callgrind-out-file=/dev/null", driver, "once"]
    said = run(command, fewer)
    prefixes = sum(int(line.split()[1]) for line in said.stdout.splitlines())
    return prefixes, int(re.search(r"Collected : (\d+)", said.stderr).group(1))


class Table:
    """Rows of families: the calls, how many are spent, the prefixes tested, and for each prefix the nanoseconds of the
    engines and of the second program, and instructions."""

    def __init__(self, rounds, engines):
        self.rounds, self.engines = rounds, engines
        self.counted = engines if os.environ.get("COUNT") else []
        names = ["before: ", ""][-len(engines):]
        head = ["searches", "alive", "of them spent", "prefixes"] + [name + "ns" for name in names] + ["second: ns"]
        head += [name + "instructions" for name in names[:len(self.counted)]]
        self.show(head)
        print("|" + "---|" * len(head))

    @staticmethod
    def show(row):
        print("| " + " | ".join(map(str, row)) + " |", flush=True)

    def times(self, calls, expected):
        """The seconds of each engine, of each call the least of the rounds."""
        least = [[float("inf")] * len(calls) for _ in self.engines]
        for _ in range(self.rounds):
            for i, driver in enumerate(self.engines):
                answers, seconds = run_engine(driver, calls)
                assert answers == expected, (driver, [pair for pair in zip(answers, expected) if pair[0] != pair[1]][:1])
                least[i] = list(map(min, least[i], seconds))
        return [sum(seconds) for seconds in least]

    def family(self, name, alive, calls):
        """Shows its row, and gives what a row of a sum adds up."""
        expected, second = run_second(calls)
        counts = [instructions(driver, calls) for driver in self.counted]
        sums = [len(calls), sum(word == "spent" for word, _ in expected), sum(tally for _, tally in expected)]
        sums += self.times(calls, expected) + [second] + [x for pair in counts for x in pair]
        self.row(name, alive, sums)
        return sums

    def row(self, name, alive, sums):
        calls, spent, prefixes, *rest = sums
        times, counts = rest[:len(self.engines) + 1], rest[len(self.engines) + 1:]
        figures = [1e9 * seconds / prefixes for seconds in times] + [n / of for of, n in zip(counts[::2], counts[1::2])]
        self.show([f"{name}: {calls}", alive, spent, f"{prefixes:,}"] + [f"{x:.3g}" if x < 100 else f"{x:.0f}" for x in figures])


def main(rounds, folder, engine, before=None):
    table = Table(rounds, [before, engine] if before else [engine])
    for name in WORKLOADS:
        table.family(name, "", workload(folder, name))
    sums = [table.family(*family) for family in WORST]
    table.row("permits", "", [sum(column) for column in zip(*sums[:2])])
    table.row("all but the workloads", "", [sum(column) for column in zip(*sums)])


if __name__ == "__main__":
    main(int(sys.argv[1]), *sys.argv[2:])
