#!/usr/bin/env python3
"""Draws an ontology in SVG: its concepts as a tree, what each has, its roles, and its clashes.

    draw_ontology.py < ontology.txt > ontology.svg

A concept stands below one that it lies in; `also in` names the others. A line `some R` below a concept leads to the
concept of the partner, or to the role. A role is shown with the concepts of its first and of its second place. A
clash is a red line between two sides, with its number.
"""

import html
import sys

ROW, LANE, INDENT, CHAR = 20, 14, 16, 7.4
STYLE = "font-family='DejaVu Sans, Verdana, sans-serif' font-size='12'"
INK = {"concept": "#1a202c", "some": "#2b6cb0", "role": "#2f855a", "clash": "#c53030"}


def side(words):
    """The first concept, role or `some R` of these words, and the words after it."""
    if words[0] == "some":
        role, rest = side(words[1:])
        return "some " + role, rest
    if words[0] == "inv":
        return "inv " + words[1], words[2:]
    return words[0], words[1:]


class Ontology:
    """What the lines of an ontology say."""

    def __init__(self, lines):
        self.names = {"concept": [], "role": [], "individual": []}
        self.sub, self.has, self.places, self.subrole, self.clashes = [], [], [], [], []
        for line in lines:
            words = line.split("#")[0].split()
            if words:
                self.add(words[0], words[1:])

    def add(self, kind, words):
        """Adds what one line says."""
        if kind in self.names:
            self.names[kind] += words
            return
        left, rest = side(words)
        right, more = side(rest)
        if kind == "subrole":
            self.subrole.append((left, right))
        elif kind.startswith("disjoint"):
            self.clashes.append((left, right))
        elif right.startswith("some "):
            self.has.append((left, right, more[0] if more else None))
        elif left.startswith("some "):
            self.places.append((left[5:], right))
        else:
            self.sub.append((left, right))

    def label(self, role):
        """A role with the concepts of its places."""
        first = " & ".join(found for name, found in self.places if name == role) or "any"
        second = " & ".join(found for name, found in self.places if name == "inv " + role) or "any"
        return f"{role}: {first} → {second}"


def tree(names, pairs):
    """The names with their depths, each once, below the first that it is paired with; and what each is in beside."""
    below, parent, beside = {}, {}, {}
    for low, high in pairs:
        if low in names and high in names and low not in parent and low != high and not is_above(parent, low, high):
            parent[low] = high
            below.setdefault(high, []).append(low)
        elif low != high:
            beside.setdefault(low, []).append(high)
    rows = []

    def add(name, depth):
        rows.append((name, depth))
        for low in below.get(name, []):
            add(low, depth + 1)

    for name in names:
        if name not in parent:
            add(name, 0)
    return rows, beside


def is_above(parent, name, other):
    """Whether the name is the other one, or above it."""
    while other is not None and other != name:
        other = parent.get(other)
    return other == name


def rows_of(ontology):
    """The rows of the picture: what is shown, how deep, of what kind, the name that it stands for, where it leads."""
    rows = []
    placed, beside = tree(ontology.names["concept"], ontology.sub)
    for name, depth in placed:
        also = f" (also in {', '.join(beside[name])})" if name in beside else ""
        rows.append((name + also, depth, "concept", name, None))
        for left, right, filler in ontology.has:
            if left == name:
                rows.append((right, depth + 1, "some", None, filler or bare(right)))
    placed, beside = tree(ontology.names["role"], [(bare(low), bare(high)) for low, high in ontology.subrole])
    turned = {bare(low) for low, high in ontology.subrole if low.startswith("inv ") != high.startswith("inv ")}
    for name, depth in placed:
        also = f" (also in {', '.join(beside[name])})" if name in beside else ""
        rows.append((ontology.label(name) + (" (by its inverse)" if name in turned else "") + also, depth, "role", name, None))
        for left, right, filler in ontology.has:
            if left.startswith("some ") and bare(left) == name:
                rows.append((f"{left[5:]}: {right}", depth + 1, "some", None, filler or bare(right)))
    return rows


def bare(words):
    """The name at the end of a side."""
    return words.split()[-1]


def lanes(spans):
    """For each span a lane in which it meets no other: the shorter it is, the nearer."""
    taken, found = [], {}
    for at in sorted(range(len(spans)), key=lambda at: spans[at][1] - spans[at][0]):
        low, high = spans[at]
        lane = next((lane for lane, used in enumerate(taken) if all(high < a or b < low for a, b in used)), len(taken))
        if lane == len(taken):
            taken.append([])
        taken[lane].append((low, high))
        found[at] = lane
    return [found[at] for at in range(len(spans))]


def draw(ontology):
    """The picture, a piece a line."""
    rows = rows_of(ontology)
    place = {name: at for at, (*_, name, _) in enumerate(rows) if name}
    y = [at * ROW + 24 + (14 if row[2] == "role" or row[1] and in_roles(rows, at) else 0) for at, row in enumerate(rows)]
    clashes = [sorted((place[bare(a)], place[bare(b)])) for a, b in ontology.clashes]
    arrows = [(at, place[row[4]]) for at, row in enumerate(rows) if row[4]]
    on_left, on_right = lanes(clashes), lanes([sorted(ends) for ends in arrows])
    left = 22 + LANE * (max(on_left, default=-1) + 1)
    ends = [left + depth * INDENT + CHAR * len(shown) + 6 for shown, depth, *_ in rows]
    right = max(ends, default=left) + 8
    wide, high = int(right + LANE * (max(on_right, default=-1) + 1) + 12), (y[-1] if y else 0) + 18
    yield f"<svg xmlns='http://www.w3.org/2000/svg' width='{wide}' height='{high}' {STYLE}>"
    yield f"<rect width='{wide}' height='{high}' fill='white'/>"
    for at, (shown, depth, kind, *_) in enumerate(rows):
        above = next((up for up in range(at - 1, -1, -1) if rows[up][1] < depth), None)
        x = left + depth * INDENT
        if above is not None:
            yield f"<path d='M{x - 10} {y[above] + 6}V{y[at]}H{x - 2}' fill='none' stroke='#a0aec0'/>"
        yield f"<text x='{x}' y='{y[at] + 4}' fill='{INK[kind]}'>{html.escape(shown)}</text>"
    for (start, end), lane in zip(arrows, on_right):
        x = int(right + LANE * lane + 6)
        path = f"M{int(ends[start])} {y[start]}H{x}V{y[end]}H{int(ends[end]) + 6}"
        yield f"<path d='{path}' fill='none' stroke='{INK['some']}' stroke-opacity='.6'/>"
        tip = int(ends[end])
        yield f"<path d='M{tip} {y[end]}l7 -4v8z' fill='{INK['some']}'/>"
    for number, ((low, top), lane) in enumerate(zip(clashes, on_left), 1):
        x = left - 10 - LANE * lane
        from_x, to_x = left - 3 + rows[low][1] * INDENT, left - 3 + rows[top][1] * INDENT
        yield f"<path d='M{from_x} {y[low]}H{x}V{y[top]}H{to_x}' fill='none' stroke='{INK['clash']}'/>"
        middle = (y[low] + y[top]) // 2
        yield f"<text x='{x - 3}' y='{middle + 3}' fill='{INK['clash']}' font-size='9' text-anchor='end'>{number}</text>"
    yield "</svg>"


def in_roles(rows, at):
    """Whether the row lies among the roles."""
    return any(row[2] == "role" for row in rows[:at])


if __name__ == "__main__":
    print("\n".join(draw(Ontology(sys.stdin))))
