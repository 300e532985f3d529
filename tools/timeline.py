#!/usr/bin/env python3
"""Draws a report in CSV form as a timeline in SVG: queries and tuples down, the lines of the stream across.

    tom watch ontology.txt queries.txt --report csv < stream.txt | timeline.py > timeline.svg
"""

import csv
import html
import sys

COLUMN, ROW, HEAD = 46, 22, 44
COLOURS = ["#2b6cb0", "#2f855a", "#b7791f", "#6b46c1", "#b83280", "#2c7a7b"]
STYLE = "font-family='DejaVu Sans, Verdana, sans-serif' font-size='12'"


def read(rows):
    """The lines of the stream that say something, the answers after each, and the queries in their order."""
    lines, answers, queries = [], [], []
    for row in rows:
        if row["event"] == "accepted":
            lines.append((row["line"], row["number"], ""))
            answers.append([])
        elif row["event"] == "refused":
            cause = f"{row['name']} {row['detail'] or row['number']}".strip()
            lines.append((row["line"], "", cause))
            answers.append([])
        elif row["event"] == "answer":
            answers[-1].append((row["name"], row["detail"]))
    for told in answers:
        place = len(queries)
        for name in reversed(dict.fromkeys(name for name, _ in told)):
            if name not in queries:
                queries.insert(place, name)
            place = queries.index(name)
    return lines, answers, queries


def text(x, y, words, **how):
    """A piece of text."""
    more = "".join(f" {name.replace('_', '-')}='{value}'" for name, value in how.items())
    return f"<text x='{x}' y='{y}'{more}>{html.escape(words)}</text>"


def header(lines, left, foot, bottom):
    """The head of each column, and the band of each refusal with its cause at the foot."""
    for place, (line, number, cause) in enumerate(lines):
        middle = left + place * COLUMN + COLUMN // 2
        if cause:
            yield (
                f"<rect x='{middle - COLUMN // 2 + 3}' y='{HEAD}' width='{COLUMN - 6}' height='{bottom - HEAD}'"
                " fill='#fde8e8'/>"
            )
            turn = f"rotate(90 {middle - 4} {foot + 4})"
            yield text(middle - 4, foot + 4, cause, fill="#c53030", transform=turn)
        yield text(middle, 18, number or "refused", text_anchor="middle",
                   **({"fill": "#c53030", "font-size": 10} if cause else {"font-weight": "bold"}))
        yield text(middle, 34, f"line {line}", text_anchor="middle", font_size=10, fill="#555")


def bar(left, y, places, accepted, colour):
    """A mark at each of these columns, joined where no accepted line lies between."""
    for before, place in zip([None] + places, places):
        x = left + place * COLUMN + COLUMN // 2
        if before is not None and not any(before < other < place for other in accepted):
            from_x = left + before * COLUMN + COLUMN // 2
            yield f"<line x1='{from_x}' y1='{y}' x2='{x}' y2='{y}' stroke='{colour}' stroke-width='3'/>"
        yield f"<circle cx='{x}' cy='{y}' r='6' fill='{colour}'/>"


def draw(lines, answers, queries):
    """The picture, a piece a line."""
    rows = [(name, found) for name in queries for found in
            dict.fromkeys(found for told in answers for query, found in told if query == name)]
    longest = max((len(cause) for _, _, cause in lines), default=0)
    left = 24 + 7 * max([len(f"{name} {found}") for name, found in rows], default=8)
    foot = HEAD + len(rows) * ROW + 8
    wide, bottom = left + len(lines) * COLUMN + 12, foot + (longest * 7 + 10 if longest else 0)
    yield f"<svg xmlns='http://www.w3.org/2000/svg' width='{wide}' height='{bottom + 10}' {STYLE}>"
    yield f"<rect width='{wide}' height='{bottom + 10}' fill='white'/>"
    yield from header(lines, left, foot, bottom)
    accepted = [place for place, (_, number, _) in enumerate(lines) if number]
    for place, (name, found) in enumerate(rows):
        y = HEAD + place * ROW + ROW // 2 + 4
        colour = COLOURS[queries.index(name) % len(COLOURS)]
        yield f"<line x1='{left}' y1='{y}' x2='{wide - 12}' y2='{y}' stroke='#e2e8f0'/>"
        yield text(12, y + 4, f"{name} {found}".strip(), fill=colour)
        seen = [at for at, told in enumerate(answers) if (name, found) in told]
        yield from bar(left, y, seen, accepted, colour)
    yield "</svg>"


if __name__ == "__main__":
    print("\n".join(draw(*read(csv.DictReader(sys.stdin)))))
