#!/usr/bin/env python3
"""Each call on trees of 1,000 to 1,000,000 nodes: `maptree` beside a plain vector of nodes and beside a tree with
pointers.

    bench/trees.py [NODES..]

The first is the test `makes_each_call_on_a_thousand_nodes_or_as_many_as_are_asked_for` of
crates/page_tests/out/page_tests_tests, which `rt ci` leaves; the others are trees.rs and pointers.rs, built here by
`rustc -O`. All make the same calls on the same trees (calls.rs) and time them, and the sums of their answers must be
equal. The vector, which passes over its nodes in each call, has no trees of more than 100,000 nodes. A run that takes
longer than LIMIT seconds is given up: what it told counts, and the rest is missing. Nothing here has a threshold.
"""

import os
import subprocess
import sys
import tempfile

HERE = os.path.dirname(os.path.abspath(__file__))
TESTS = os.path.join(os.path.dirname(HERE), "crates", "page_tests", "out", "page_tests_tests")
TEST = "trees::large::makes_each_call_on_a_thousand_nodes_or_as_many_as_are_asked_for"
NODES = [1_000, 10_000, 100_000, 1_000_000]
MOST_OF_VECTOR = 100_000
RUNS = 3
LIMIT = 600
KINDS = ["maptree", "vector", "pointers"]
# Two calls about the same node, of which the sum is told too.
PAIR = ("run_of", "origin_of")


def measured(words):
    """The nanoseconds a call and the sum of the answers, by form and call: the least times of some runs."""
    least = {}
    for _ in range(RUNS):
        text, ended = output_of(words)
        for form, call, nanos, answers in told(text):
            before = least.get((form, call), (nanos, answers))
            least[form, call] = (min(nanos, before[0]), answers)
        if not ended:
            break
    return least


def output_of(words):
    """What a run wrote, and whether it came to its end."""
    try:
        return subprocess.run(words, check=True, stdout=subprocess.PIPE, text=True, timeout=LIMIT).stdout, True
    except subprocess.TimeoutExpired as given_up:
        written = (given_up.stdout or b"").decode()
        return written[: written.rfind("\n") + 1], False


def told(text):
    """What a run told: form, call, nanoseconds a call, and the sum of the answers. Other lines are the test's own."""
    form = ""
    for words in map(str.split, text.splitlines()):
        if len(words) == 2:
            form = words[0]
        elif len(words) == 4:
            call, calls, nanos, answers = words
            yield form, call, int(nanos) / int(calls), int(answers)


def built(source, room):
    """The program of a Rust file beside this one."""
    program = os.path.join(room, os.path.splitext(source)[0])
    subprocess.run(["rustc", "--edition", "2021", "-O", "-o", program, os.path.join(HERE, source)], check=True)
    return program


def check_answers(nodes, of_kinds):
    """Every kind answers alike."""
    for (form, call), (_, answers) in of_kinds["pointers"].items():
        for kind in KINDS:
            other = of_kinds[kind].get((form, call), (0, answers))[1]
            if other != answers:
                sys.exit(f"trees.py: {form} {nodes} {call}: the sum of {kind} is {other}, that of pointers {answers}")


def with_pair(of_kind):
    """The same with a line for the two calls of a pair together, behind the second of them."""
    told = {}
    for (form, call), (nanos, answers) in of_kind.items():
        told[form, call] = (nanos, answers)
        if call == PAIR[1]:
            first = of_kind[form, PAIR[0]]
            told[form, "+".join(PAIR)] = (first[0] + nanos, first[1] + answers)
    return told


def shown(nanos):
    """Nanoseconds, or a dash where there are none."""
    return "-" if nanos is None else f"{nanos:,.1f}"


def ratio(of, to):
    """How many times one is of another, or a dash."""
    return "-" if of is None or to is None else f"{of / max(to, 0.1):,.2f}"


def report(sizes, results):
    """For each form and call a line for each size, and one of how the times grew."""
    head = "".join(f"{kind:>20}" for kind in KINDS)
    print(f"{'nanoseconds a call':<26}{'nodes':>10}{head}{'to vector':>11}{'to pointers':>13}")
    for form, call in results[sizes[0]]["pointers"]:
        nanos = {(size, kind): results[size][kind].get((form, call), (None,))[0] for size in sizes for kind in KINDS}
        for size in sizes:
            ours, vector, pointers = (nanos[size, kind] for kind in KINDS)
            times = "".join(f"{shown(it):>20}" for it in (ours, vector, pointers))
            print(f"{form + ' ' + call:<26}{size:>10,}{times}{ratio(ours, vector):>11}{ratio(ours, pointers):>13}")
        if len(sizes) > 1:
            grown = "".join(f"{growth(sizes, nanos, kind):>20}" for kind in KINDS)
            print(f"{'':<26}{'grew':>10}{grown}")


def growth(sizes, nanos, kind):
    """How many times the time of a call grew from the smallest size to the largest that was measured."""
    measured_sizes = [size for size in sizes if nanos[size, kind] is not None]
    if len(measured_sizes) < 2:
        return "-"
    first, last = measured_sizes[0], measured_sizes[-1]
    mark = "" if last == sizes[-1] else f" ({last:,})"
    return f"{nanos[last, kind] / max(nanos[first, kind], 0.1):,.1f}{mark}"


def main():
    if not os.access(TESTS, os.X_OK):
        sys.exit(f"trees.py: there is no {TESTS}: `rt test` in crates/page_tests proves it and builds it")
    sizes = sorted({int(word) for word in sys.argv[1:]} or NODES)
    results = {}
    with tempfile.TemporaryDirectory() as room:
        vector, pointers = built("trees.rs", room), built("pointers.rs", room)
        for nodes in sizes:
            print(f"trees.py: trees of {nodes:,} nodes", file=sys.stderr, flush=True)
            results[nodes] = {
                "maptree": measured([TESTS, TEST, str(nodes)]),
                "vector": measured([vector, str(nodes)]) if nodes <= MOST_OF_VECTOR else {},
                "pointers": measured([pointers, str(nodes)]),
            }
            check_answers(nodes, results[nodes])
            results[nodes] = {kind: with_pair(told) for kind, told in results[nodes].items()}
    report(sizes, results)


if __name__ == "__main__":
    main()
