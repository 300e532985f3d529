#!/usr/bin/env python3
"""Tells proofs in words: what was recorded, what follows from it by which line of the ontology, and what that shows.

    tom explain ontology.txt queries.txt < stream.txt | read_proofs.py ontology.txt queries.txt

Lines that belong to no proof are passed on. It reads proofs, and doesn't check them: `tom verify` does.
"""

import re
import sys

WORD = re.compile(r"[\w-]+|\?[\w-]+|[][(),;=&|]")
ALONE = {"next", "wnext", "prev", "wprev", "eventually", "always", "once", "historically"}


class Statement:
    """A line of the ontology that says an inclusion or a clash."""

    def __init__(self, number, words):
        self.number, self.words, self.kind = number, " ".join(words), words[0]
        self.left, rest = side(words[1:])
        self.right, more = side(rest)
        self.concept = more[0] if more else None

    def told(self):
        """The line, as a reader finds it."""
        return f"line {self.number}: {self.words}"


def side(words):
    """The first concept, role or `some R` of these words, and the words after it."""
    if words[0] == "some":
        role, rest = side(words[1:])
        return ("some", role), rest
    if words[0] == "inv":
        return ("inv", words[1]), words[2:]
    return ("name", words[0]), words[1:]


def statements_of(lines):
    """The inclusions and the clashes of an ontology, each in its order."""
    inclusions, clashes = [], []
    for number, line in enumerate(lines, 1):
        words = line.split("#")[0].split()
        if words and words[0] in ("sub", "subrole"):
            inclusions.append(Statement(number, words))
        elif words and words[0].startswith("disjoint"):
            clashes.append(Statement(number, words))
    return inclusions, clashes


class Formula:
    """The pairs of brackets of a query, by their places among its nodes, which stand behind what they are made of."""

    def __init__(self, words):
        self.words, self.at, self.nodes, self.leaves = words, 0, 0, {}
        self.either()

    def take(self):
        self.at += 1
        return self.words[self.at - 1]

    def sees(self, *words):
        return self.at < len(self.words) and self.words[self.at] in words

    def joined(self, part, *words, many=True):
        """Parts between such words, grouped from the left."""
        part()
        while self.sees(*words):
            self.take()
            part()
            self.nodes += 1
            if not many:
                break

    def either(self):
        self.joined(self.both, "|")

    def both(self):
        self.joined(self.timed, "&")

    def timed(self):
        self.joined(self.unary, "until", "since", many=False)

    def unary(self):
        word = self.take()
        if word == "(":
            self.either()
            self.take()
            return
        if word in ALONE:
            self.unary()
        elif word == "[":
            end = self.words.index("]", self.at)
            self.leaves[self.nodes] = self.words[self.at:end]
            self.at = end + 1
        self.nodes += 1


def queries_of(text):
    """For each query its answer variables and its pairs of brackets."""
    words = WORD.findall(re.sub(r"#.*", "", text))
    found = {}
    while words:
        end = words.index(";")
        equals = words.index("=")
        found[words[1]] = [word for word in words[3:equals - 1] if word != ","], Formula(words[equals + 1:end]).leaves
        words = words[end + 1:]
    return found


def spelled(words):
    """The atoms of a pair of brackets."""
    return "[" + "".join(words).replace("),", "), ") + "]"


class Told:
    """A proof that is being read: its goal, and its facts so far with what is said of each."""

    def __init__(self, goal, ontology, queries):
        self.goal, self.queries, self.facts, self.notes = goal, queries, [], []
        self.inclusions, self.clashes = ontology

    def record(self, text):
        for name, first, second in re.findall(r"([\w-]+)\s*\(\s*([\w-]+)\s*(?:,\s*([\w-]+)\s*)?\)", text):
            self.facts.append((name, first, second) if second else (name, first))
            self.notes.append("is recorded")

    def step(self, place, number):
        """What the inclusion makes of the fact at the place."""
        inclusion, fact, null = self.inclusions[number - 1], self.facts[place], f"*{len(self.facts)}"
        if inclusion.kind == "subrole":
            made = [pair(inclusion.right, *ends(inclusion.left, fact))]
        else:
            first = ends(inclusion.left[1], fact)[0] if inclusion.left[0] == "some" else fact[1]
            kind, of = inclusion.right
            made = [pair(of, first, null)] if kind == "some" else [(of, first)]
            made += [(inclusion.concept, null)] if inclusion.concept else []
        self.facts += made
        self.notes += [f"follows from {place} by {inclusion.told()}"] * len(made)

    def goal_told(self):
        if self.goal[0] == "clash":
            return f"The facts contradict {self.clashes[int(self.goal[1]) - 1].told()}"
        name, place, *row = self.goal[1:]
        leaf = spelled(self.queries[name][1][int(place)])
        if not row:
            return f"{leaf} of {name} certainly holds"
        return f"{' '.join(row)} {'is' if len(row) == 1 else 'are'} certainly an answer of {leaf} of {name}"

    def variables(self):
        """The variables of the goal's brackets, those that are answered first."""
        answered, leaves = self.queries[self.goal[1]]
        used = [word for word in leaves[int(self.goal[2])] if word.startswith("?")]
        return [it for it in answered if it in used] + list(dict.fromkeys(it for it in used if it not in answered))

    def ending(self, word, given):
        if word == "at":
            return f"{given[0]} and {given[1]} can't be true together."
        pairs = [f"{name} is {it if it[0] != '*' else it + ', which nobody named'}"
                 for name, it in zip(self.variables(), given)]
        return f"So {'; '.join(pairs)}." if pairs else "All that it asks for is there."

    def lines(self, word, given):
        """The whole proof, told."""
        shown = [f"{fact[0]}({','.join(fact[1:])})" for fact in self.facts]
        wide = max(map(len, shown), default=0)
        yield f"{self.goal_told()}:"
        for place, (fact, note) in enumerate(zip(shown, self.notes)):
            yield f"  {place:>2}  {fact:<{wide}}  {note}"
        yield f"  {self.ending(word, given)}"


def ends(role, fact):
    """The two ends of a pair, as the role has them."""
    return (fact[2], fact[1]) if role[0] == "inv" else (fact[1], fact[2])


def pair(role, first, second):
    """The fact that the role has this pair."""
    return (role[1], second, first) if role[0] == "inv" else (role[1], first, second)


def told(lines, ontology, queries):
    """Each proof in words, and each other line as it is."""
    proof, last = None, None
    for line in lines:
        word, *rest = line.split() or [""]
        if word == "proof":
            proof = Told(rest, ontology, queries)
        elif proof is None:
            yield line
        elif word == "snap":
            proof.record(line[4:])
        elif word == "step":
            proof.step(int(rest[0]), int(rest[1]))
        elif word in ("match", "at"):
            last = word, rest
        else:
            yield from proof.lines(*last)
            proof = None


def main():
    if len(sys.argv) != 3:
        sys.exit("usage: read_proofs.py ONTOLOGY QUERIES < PROOFS")
    with open(sys.argv[1], encoding="utf-8") as it:
        ontology = statements_of(it)
    with open(sys.argv[2], encoding="utf-8") as it:
        queries = queries_of(it.read())
    for line in told(sys.stdin.read().splitlines(), ontology, queries):
        print(line)


main()
