#!/usr/bin/env python3
"""Measures the built program: lines a second and peak memory, by individuals, queries and answer variables.

    tools/measure.py [LINES] > table

Each line has 20 facts about random individuals, under 20 concepts in a tree, five roles with domains, ranges and
partners, and two clashes that no line meets. Time is what the run took of a processor, the opening included.
"""

import os
import pathlib
import random
import re
import subprocess
import sys
import tempfile
import time

PROGRAM = str(pathlib.Path(__file__).resolve().parent.parent / "crates/tom/out/tom")
FACTS = 20
FORMS = {
    1: ["once ([C{a}(?x)] & next [C{b}(?x)])", "[C{a}(?x)] since [r{r}(?x,?y), C{b}(?y)]",
        "[r{r}(?x,?y)] & once [C{a}(?x)]", "[C{a}(?x)] & prev historically [C{b}(?x)]"],
    2: ["[C{a}(?x)] & once [r{r}(?x,?y)]", "[r{r}(?x,?y)] & once [C{a}(?x)]", "[C{a}(?x)] & prev ([C{b}(?x)] since [r{r}(?x,?y)])"],
}


def ontology(individuals):
    """The text of the ontology."""
    yield from (f"concept C{n}" for n in range(20))
    yield from (f"role r{n}" for n in range(5))
    yield from (f"individual i{n}" for n in range(individuals))
    yield from (f"sub C{n} C{n // 2}" for n in range(2, 20) if n not in (10, 11))
    yield from (line for n in range(5) for line in (f"sub some r{n} C1", f"sub C{n + 12} some r{n} C{n + 5}"))
    yield "disjoint C10 C11"
    yield "disjoint C10 C1"


def queries(count, variables):
    """The text of so many queries of so many answer variables."""
    answers = "?x" if variables == 1 else "?x ?y"
    for n in range(count):
        form = FORMS[variables][n % len(FORMS[variables])].format(a=2 + n % 8, b=5 + n % 9 % 5, r=n % 5)
        yield f"query q{n} ({answers}) = {form} ;"


def line(individuals, draw):
    """A snapshot."""
    facts = []
    for at in range(FACTS):
        one = draw.randrange(individuals)
        if at % 2:
            facts.append(f"r{draw.randrange(5)}(i{one},i{draw.randrange(individuals)})")
        else:
            facts.append(f"C{draw.choice([2, 4, 5, 6, 7, 8, 9, 12, 13, 14, 15, 16])}(i{one})")
    return "snap " + " ".join(facts)


def measure(individuals, count, variables, lines):
    """Seconds of a processor, peak memory in megabytes and the end of the report of one run."""
    draw = random.Random(7)
    with tempfile.TemporaryDirectory() as folder:
        place = pathlib.Path(folder)
        (place / "ontology").write_text("\n".join(ontology(individuals)))
        (place / "queries").write_text("\n".join(queries(count, variables)))
        (place / "stream").write_text("\n".join(line(individuals, draw) for _ in range(lines)))
        with open(place / "stream", "rb") as stream, open(place / "report", "wb") as report:
            words = [PROGRAM, "watch", str(place / "ontology"), str(place / "queries")]
            child = subprocess.Popen(words, stdin=stream, stdout=report)
            took, used = cost(child.pid)
        with open(place / "report", "rb") as report:
            report.seek(-100, os.SEEK_END)
            return took, used / 1024, report.read().decode().splitlines()[-1]


def cost(child):
    """Waits for the child: its seconds of a processor, and the most memory that it was seen to have, in kilobytes."""
    most = 0
    while True:
        status = pathlib.Path(f"/proc/{child}/status").read_text()
        found = re.search(r"VmHWM:\s+(\d+)", status)
        most = max(most, int(found[1]) if found else 0)
        ended, _, used = os.wait4(child, os.WNOHANG)
        if ended:
            return used.ru_utime + used.ru_stime, most
        time.sleep(0.002)


def main():
    lines = int(sys.argv[1]) if sys.argv[1:] else 20000
    print("| Individuals | Queries | Answer variables | Lines a second | Peak memory, MB |")
    print("|---|---|---|---|---|")
    for variables, sizes, counts in ((1, (100, 1000, 4000), (1, 4, 16)), (2, (100, 1000, 2000), (1, 3))):
        for individuals in sizes:
            for count in counts:
                took, used, end = measure(individuals, count, variables, lines)
                assert end == f"end accepted {lines} refused 0", end
                print(f"| {individuals:,} | {count} | {variables} | {lines / took:,.0f} | {used:,.0f} |", flush=True)


if __name__ == "__main__":
    main()
