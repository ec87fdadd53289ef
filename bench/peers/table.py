#!/usr/bin/env python3
"""What the harness wrote to DIR, as tables in Markdown.

table.py common DIR FAMILY OPERATION K | table DIR MODE SEED | verdict DIR | compare DIR
"""
import collections
import os
import statistics
import sys

OURS = "pitsets"
PEERS = ["isl", "isl32", "mlir19"]
BUILDS = ["before", "after"]  # of compare.sh
FAMILIES = ["dispatch", "slots", "weeks", "limit", "big"]
OPERATIONS = {
    "difference": "difference A \\ C", "complement": "complement of C", "intersection": "intersection A ∩ B", "chain": "chain (A ∩ B) \\ C \\ D",
    "empty": "is E \\ A empty: difference, then emptiness", "subset": "the same, by the peer's own call for E ⊆ A", "union": "union A ∪ C",
    "member": "member, one question", "prepared": "member, point prepared", "first": "first point of A \\ C in the box"}
QUESTIONS = 256  # of one case of member
FAST_PEERS = ["isl32", "mlir19"]
ASKING_FAMILIES = ["dispatch", "limit", "big"]
# of asking: the least ratio of medians to the best of these peers that is wanted; union and member on each of the families
TARGETS = {
    "union": dict.fromkeys(ASKING_FAMILIES, 1.0), "prepared": dict.fromkeys(ASKING_FAMILIES, 1.8),
    "first": {"dispatch": 3, "limit": 4}}

Case = collections.namedtuple("Case", "status ns answer basic_sets constraints")


def lines(folder, name):
    path = os.path.join(folder, name)
    return [line.rstrip("\n").split(",") for line in open(path)] if os.path.exists(path) else []


def times(folder):
    """(family, operation, column) to case to its line; ns is the median of the rounds."""
    rounds = collections.defaultdict(lambda: collections.defaultdict(list))
    for column, family, operation, case, status, ns, answer, basic_sets, constraints in lines(folder, "time.csv"):
        rounds[family, operation, column][int(case)].append(Case(status, int(ns), int(answer), int(basic_sets), int(constraints)))
    return {key: {case: merged(r) for case, r in cases.items()} for key, cases in rounds.items()}


def merged(rounds):
    bad = [r for r in rounds if r.status != "ok"]
    return bad[0] if bad else rounds[0]._replace(ns=statistics.median(r.ns for r in rounds))


def columns(run):
    return [c for c in PEERS + [OURS] + BUILDS if any(column == c for _, _, column in run)]


def of(run, family, operation, column):
    """The column's cases; the engine's member stands for a prepared point too."""
    if operation == "prepared" and column == OURS:
        operation = "member"
    return run.get((family, operation, column), {})


def common(run, family, operation):
    done = [{case for case, r in of(run, family, operation, c).items() if r.status == "ok"} for c in columns(run)]
    return sorted(set.intersection(*done)) if done else []


def figure(x):
    return f"{x:.2f}" if x < 10 else f"{x:.1f}" if x < 100 else f"{x:,.0f}"


def markdown(head, body):
    print("| " + " | ".join(head) + " |\n|" + "---|" * len(head))
    for row in body:
        print("| " + " | ".join(map(str, row)) + " |")
    print()


def ratio(values, peers=PEERS):
    """Best peer over the engine: above 1 the engine is ahead."""
    peers = {c: v for c, v in values.items() if c in peers and v}
    if not peers or not values.get(OURS):
        return "-"
    best = min(peers, key=peers.get)
    return f"{peers[best] / values[OURS]:.2f} ({best})"


def medians_and_totals(run, family, operation, cases):
    """Of each column the median of the cases in µs, of one question where a case has many, and their total in ms."""
    median, total = {}, {}
    for c in columns(run):
        ns = [of(run, family, operation, c)[case].ns for case in cases]
        median[c] = statistics.median(ns) / 1000 / (QUESTIONS if operation in ("member", "prepared") else 1)
        total[c] = sum(ns) / 1e6
    return median, total


def time_table(run, family):
    body = []
    for operation, words in OPERATIONS.items():
        cases = common(run, family, operation)
        if not cases:
            continue
        median, total = medians_and_totals(run, family, operation, cases)
        body.append([words, len(cases)] + [f"{figure(median[c])}; {figure(total[c])}" for c in columns(run)] + [ratio(median), ratio(total)])
    if body:
        print(f"### {family}: median of the cases in µs; total in ms\n")
        markdown(["operation", "cases"] + columns(run) + ["ratio of medians", "ratio of totals"], body)


def asking_table(run):
    body = []
    for operation, targets in TARGETS.items():
        for family, target in targets.items():
            if cases := common(run, family, operation):
                median, _ = medians_and_totals(run, family, operation, cases)
                shown = [figure(median[c]) for c in FAST_PEERS + [OURS] if c in median]
                body.append([OPERATIONS[operation], family, len(cases)] + shown + [ratio(median, FAST_PEERS), target])
    if body:
        print("### asking: medians of the cases in µs; ratio to the best of isl32 and MLIR\n")
        shown = [c for c in FAST_PEERS + [OURS] if c in columns(run)]
        markdown(["question", "workload", "cases"] + shown + ["ratio of medians", "wanted"], body)


def count_table(folder, family):
    counts = collections.defaultdict(dict)
    for column, f, operation, cases, n in lines(folder, "count.csv"):
        if n and f == family:
            counts[operation][column] = int(n) / int(cases) / (QUESTIONS if operation in ("member", "prepared") else 1) / 1000
    if OURS in counts["member"]:
        counts["prepared"][OURS] = counts["member"][OURS]
    shown = [c for c in PEERS + [OURS] if any(c in v for v in counts.values())]
    body = []
    for operation, words in OPERATIONS.items():
        by = counts[operation]
        if by:
            body.append([words] + [figure(by[c]) if c in by else "-" for c in shown] + [ratio(by)])
    if body:
        print(f"### {family}: instructions in thousands (callgrind, mean of a few cases)\n")
        markdown(["operation"] + shown + ["ratio"], body)


def refusals(run):
    body = []
    for family in FAMILIES:
        for operation in OPERATIONS:
            for c in columns(run):
                n = collections.Counter(r.status for r in run.get((family, operation, c), {}).values())
                if sum(n.values()) > n["ok"]:
                    body.append([family, operation, c, sum(n.values()), ", ".join(f"{s}: {k}" for s, k in sorted(n.items()) if s != "ok")])
    if body:
        print("### cases without a time\n")
        print("`refused 10`: the result would have more than 32 basic sets. `given up`: the search's limit of 1,000,000 prefixes is spent,")
        print("or the difference is refused. `time`: the limit on processor time.\n")
        markdown(["family", "operation", "column", "cases", "not finished"], body)


def size(run, family, operation, column, field):
    return sum(getattr(run[family, operation, column][case], field) for case in common(run, family, operation))


def sizes(run, family):
    body = []
    for operation in ("difference", "complement", "intersection", "chain"):
        if cases := common(run, family, operation):
            sums = [[size(run, family, operation, c, x) for x in ("basic_sets", "constraints")] for c in columns(run)]
            body.append([operation, len(cases)] + ["; ".join(map(str, pair)) for pair in sums])
    if body:
        print(f"### {family}: basic sets; constraints of the results\n")
        markdown(["operation", "cases"] + columns(run), body)


def checks(folder):
    """(family, column) to [results, points, wrong results, errors, not finished], and the answers of each case."""
    sums, answers = collections.defaultdict(lambda: [0] * 5), collections.defaultdict(dict)
    for column, family, operation, case, status, points, wrong, errors, answer in lines(folder, "check.csv"):
        s = sums[family, column]
        if status != "ok":
            s[4] += 1
            continue
        s[0] += 1
        s[1] += int(points)
        s[2] += int(wrong) > 0
        s[3] += int(errors)
        if operation in ("empty", "subset", "first"):
            answers[family, operation, case][column] = int(answer)
    return sums, answers


def disagreements(answers):
    """Column to the number of answers that contradict isl's. An emptiness that is not shown (2) contradicts nothing."""
    found = collections.Counter()
    for (_, operation, _), by in answers.items():
        for column, answer in by.items():
            found[column] += "isl" in by and answer != by["isl"] and not (operation != "first" and answer == 2)
    return found


def check_table(folder):
    sums, answers = checks(folder)
    if not sums:
        return
    print("### results against membership by the definition\n")
    print("`tiny` and `slots`: every point of the box.")
    print("The others: 256 points a case and every point of six small boxes near edges.\n")
    order = [(f, c) for f in ["tiny"] + FAMILIES for c in PEERS + [OURS] if (f, c) in sums]
    body = [[f, c] + [f"{x:,}" for x in sums[f, c]] for f, c in order]
    markdown(["family", "column", "results", "points", "wrong results", "errors", "not finished"], body)
    found = disagreements(answers)
    print("First points and emptiness that contradict isl's: " + ", ".join(f"{c} {found[c]}" for c in PEERS + [OURS] if c in found) + ".\n")


def quote(folder, *names):
    for name in names:
        for line in lines(folder, name):
            print("    " + ",".join(line))


def beside(before, after, form=figure, ratio=None):
    """Two cells: before and after, and their ratio."""
    return [f"{form(before)} → {form(after)}", f"{ratio or after / before:.3f}" if before else "-"]


def rounds(folder, family, operation, cases):
    """Of each build the ns of each round, all the cases together."""
    ns = collections.defaultdict(list)
    for column, f, o, case, _, t, *_ in lines(folder, "time.csv"):
        if (f, o) == (family, operation):
            ns[column, int(case)].append(int(t))
    return [[sum(r) for r in zip(*(ns[c, case] for case in cases))] for c in BUILDS]


def compared(folder, run, counts, family, operation):
    cases = common(run, family, operation)
    before, after = rounds(folder, family, operation, cases)
    row = [operation, len(cases)]
    row += beside(*(counts.get((c, family, operation), 0) / len(cases) / 1000 for c in BUILDS))
    row += beside(*(statistics.median(r) / len(cases) / 1000 for r in (before, after)),
                  ratio=statistics.median(b / a for a, b in zip(before, after)))
    row += beside(*(size(run, family, operation, c, "basic_sets") for c in BUILDS), str)
    stopped = [sum(r.status != "ok" for r in run[family, operation, c].values()) for c in BUILDS]
    return row + [" → ".join(map(str, stopped))]


def compare(folder):
    """The engine before and after a change, over the cases that both finished."""
    run = times(folder)
    counts = {(c, f, o): int(n) for c, f, o, n in lines(folder, "count.csv") if n}
    quote(folder, "machine.txt")
    print("\nMeans of the cases. µs: the median round; its ratio: the median of the rounds' ratios, after over before.")
    head = ["operation", "cases", "thousand instructions", "ratio", "µs", "ratio", "basic sets of all results", "ratio",
            "not finished"]
    for family in dict.fromkeys(f for f, _, _ in run):
        asked = dict.fromkeys(o for f, o, _ in run if f == family)
        print(f"\n### {family}: before → after\n")
        markdown(head, [compared(folder, run, counts, family, o) for o in asked if common(run, family, o)])


def table(folder, mode, seed):
    run = times(folder)
    quote(folder, "machine.txt", "versions.txt")
    print(f"\nSeed {seed}, mode {mode}. Ratio: the best peer's figure over the engine's, above 1 the engine is ahead.\n")
    for family in FAMILIES:
        time_table(run, family)
    asking_table(run)
    for family in FAMILIES:
        count_table(folder, family)
    refusals(run)
    for family in FAMILIES:
        sizes(run, family)
    check_table(folder)


def verdict(folder):
    sums, answers = checks(folder)
    wrong = sum(s[2] + s[3] for (_, column), s in sums.items() if column == OURS) + disagreements(answers)[OURS]
    if wrong:
        print(f"the engine was wrong {wrong} times", file=sys.stderr)
    return wrong > 0


if __name__ == "__main__":
    if sys.argv[1] == "common":
        print(",".join(map(str, common(times(sys.argv[2]), sys.argv[3], sys.argv[4])[:int(sys.argv[5])])))
    elif sys.argv[1] == "verdict":
        sys.exit(verdict(sys.argv[2]))
    elif sys.argv[1] == "compare":
        compare(sys.argv[2])
    else:
        table(*sys.argv[2:5])
