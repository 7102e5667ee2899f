#!/usr/bin/env python3
"""Plain, slow readers of CNFs, traces and BLIFs with their first fault, and random texts on which the program
must say the same.

    cases/plain_texts.py compare PROGRAM [ROUNDS [SEED]]

The readers follow docs/formats.md in the plainest way and share no code with the program: a text is cut into its
tokens or joined lines first, and these are gone over once. Each round takes texts that read, changes them at
random (bytes, tokens, whole lines, cut ends), and asks `check` for a CNF and a trace, or `place` for a design.
A design that reads is placed and judged by plain_map.py. It prints its seed, and how often each fault came.
"""
import os
import random
import re
import subprocess
import sys
import tempfile

import plain_map
import plain_verify

MAX_VARIABLE, MAX_COUNT = 16_777_216, 2_147_483_647
NUMBER, LITERAL = re.compile(rb"0|[1-9][0-9]*"), re.compile(rb"-?[1-9][0-9]*")
PORTS, SIGNALS = 64, 4_096


class Fault(Exception):
    """The first fault of a text, as it is printed behind the file's name."""


def tokens_of(data, comments):
    """Each token with its offset and the number of its line."""
    start, found = 0, []
    for line, content in enumerate(data.split(b"\n")):
        if not (comments and content[:1] == b"c"):
            found += [(start + m.start(), line, m.group()) for m in re.finditer(rb"[^ \t\r]+", content)]
        start += len(content) + 1
    return found


def number(token, least, most):
    return NUMBER.fullmatch(token) is not None and least <= int(token) <= most


def is_literal(token):
    return LITERAL.fullmatch(token) is not None and abs(int(token)) <= MAX_VARIABLE


def read_cnf(data):
    """The clauses of a CNF, as a set of sets of literals."""
    tokens = tokens_of(data, True)
    forms = [lambda t: t == b"p", lambda t: t == b"cnf", lambda t: number(t, 0, MAX_VARIABLE), lambda t: number(t, 0, MAX_COUNT)]
    for place, form in enumerate(forms):
        if place == len(tokens):
            raise Fault("syntax %d" % len(data))
        at, line, token = tokens[place]
        if line != tokens[0][1] or not form(token):
            raise Fault("syntax %d" % at)
    if len(tokens) > 4 and tokens[4][1] == tokens[0][1]:
        raise Fault("syntax %d" % tokens[4][0])
    variables, said, clauses, clause = int(tokens[2][2]), int(tokens[3][2]), [], []
    for at, _, token in tokens[4:]:
        if token == b"0":
            clauses.append(frozenset(clause))
            clause = []
        elif not is_literal(token):
            raise Fault("syntax %d" % at)
        elif abs(int(token)) > variables:
            raise Fault("var-range %d" % at)
        else:
            clause.append(int(token))
    if clause:
        raise Fault("syntax %d" % len(data))
    if len(clauses) != said:
        raise Fault("count %d %d" % (said, len(clauses)))
    return set(clauses)


def read_trace(data, may_have_signs=True):
    """The clauses of a trace: index, literals as a set or None for the sign, and places of antecedents."""
    places, clauses, part = {}, [], "index"
    for at, _, token in tokens_of(data, False):
        if part == "index" and number(token, 1, MAX_COUNT):
            index, stated, antecedents, part = int(token), [], [], "first"
        elif part == "first" and token == b"*" and may_have_signs:
            stated, part = None, "antecedent behind the sign"
        elif part in ("first", "literal") and token == b"0":
            part = "antecedent"
        elif part in ("first", "literal") and is_literal(token):
            stated.append(int(token))
            part = "literal"
        elif part.startswith("antecedent") and number(token, 1, MAX_COUNT):
            antecedents.append(int(token))
            part = "antecedent"
        elif part == "antecedent" and token == b"0":
            if index in places:
                raise Fault("repeated %d" % index)
            for antecedent in antecedents:
                if antecedent not in places:
                    raise Fault("unknown %d %d" % (index, antecedent))
            clauses.append((index, None if stated is None else frozenset(stated), [places[a] for a in antecedents]))
            places[index] = len(places)
            part = "index"
        else:
            raise Fault("syntax %d" % at)
    if part != "index":
        raise Fault("syntax %d" % len(data))
    return clauses


def lines_of(data):
    """The tokens of each joined line that has some, with the number of its first line."""
    pending, first = b"", None
    lines = data.split(b"\n")
    for at, line in enumerate(lines, 1):
        line = line[:-1] if line.endswith(b"\r") else line
        line = line.split(b"#", 1)[0].rstrip(b" \t")
        first = first or at
        if line.endswith(b"\\"):
            pending += line[:-1] + b" "
            if at < len(lines):
                continue
            line = b""
        words = re.findall(rb"[^ \t]+", pending + line)
        if words:
            yield first, words
        pending, first = b"", None


class Design:
    """What was read of a design so far."""

    def __init__(self):
        self.inputs, self.outputs, self.covers = [], [], []
        self.open = self.ended = self.begun = False

    def signals(self):
        return len(self.inputs) + len(self.covers)

    def is_driven(self, name):
        return name in self.inputs or any(name == cover["out"] for cover in self.covers)

    def line(self, words):
        """Takes a line; answers the fault that it has, if any."""
        begun, self.begun = self.begun, True
        if any(not all(33 <= byte <= 126 for byte in word) or word.endswith(b"\\") for word in words):
            return "syntax"
        first, names = words[0], words[1:]
        if first == b".model" and begun:
            return "unsupported"
        if self.ended:
            return "syntax"
        if not first.startswith(b"."):
            return self.row(words)
        self.open = False
        if first == b".model":
            return "syntax" if len(names) > 1 else None
        if first == b".inputs":
            return self.each(names, self.input)
        if first == b".outputs":
            return self.each(names, self.output)
        if first == b".names":
            return self.cover(names)
        self.ended = first == b".end"
        return "unsupported" if first != b".end" else "syntax" if names else None

    @staticmethod
    def each(names, take):
        return next((fault for fault in map(take, names) if fault), None)

    def input(self, name):
        if self.is_driven(name):
            return "double-driven"
        if len(self.inputs) == PORTS or self.signals() == SIGNALS:
            return "limit"
        self.inputs.append(name)

    def output(self, name):
        if name in self.outputs:
            return "repeated-output"
        if len(self.outputs) == PORTS:
            return "limit"
        self.outputs.append(name)

    def cover(self, names):
        if not names:
            return "syntax"
        if len(names) - 1 > PORTS:
            return "limit"
        if self.is_driven(names[-1]):
            return "double-driven"
        if self.signals() == SIGNALS:
            return "limit"
        self.covers.append({"ins": names[:-1], "out": names[-1], "value": None})
        self.open = True

    def row(self, words):
        if not self.open:
            return "syntax"
        cover = self.covers[-1]
        marks = words[:-1] if cover["ins"] else [b"", *words[:-1]]
        width = len(cover["ins"])
        if len(marks) != 1 or len(marks[0]) != width or marks[0].strip(b"01-") or words[-1] not in (b"0", b"1"):
            return "syntax"
        if cover["value"] not in (None, words[-1]):
            return "mixed"
        cover["value"] = words[-1]

    def building(self):
        """The fault of building the network."""
        known = set(self.inputs) | {cover["out"] for cover in self.covers}
        for node, cover in enumerate(self.covers):
            for pin, name in enumerate(cover["ins"]):
                if name not in known:
                    return "undriven-pin %d %d" % (node, pin)
        for place, name in enumerate(self.outputs):
            if name not in known:
                return "undriven-output %d" % place
        settled, grown = set(self.inputs), True
        while grown:
            more = {cover["out"] for cover in self.covers if all(name in settled for name in cover["ins"])}
            grown = not more <= settled
            settled |= more
        return next(("cycle %d" % node for node, cover in enumerate(self.covers) if cover["out"] not in settled), None)


def read_design(data):
    design = Design()
    for at, words in lines_of(data):
        fault = design.line(words)
        if fault:
            raise Fault("%s %d" % (fault, at))
    fault = design.building() if design.outputs else "no-outputs"
    if fault:
        raise Fault(fault)


# ---- random texts

CNFS = [b"p cnf 1 2\n1 0\n-1 0\n", b"c a\np cnf 3 4\n1 2 0\n-1 3 0\n-2\n3 0 -3 0\n", b"p  cnf 2 3\r\n-2 1 0 2 0\t-1 0"]
TRACES = [b"1 1 0 0\n2 -1 0 0\n3 0 1 2 0\n", b"1 1 0 0\n2 -1 0 0\n3 * 1 0\n4 0 3 2 0\n",
          b"1 1 2 0 0\n2 -1 3 0 0\n3 -2 3 0 0\n4 -3 0 0\n5 2 3 0 1 2 0\n6 * 5 3 0\n7 0 6 4 0"]
DESIGNS = [b".inputs a\n.outputs y\n.names a y\n0 1\n.end\n",
           b"# x\n.model m\n.inputs a b \\\n c\n.outputs s a\n.names a b x\n10 1\n01 1\n.names x c s\n1- 0\n.end",
           b".outputs z k\r\n.names k z\n0 1\n.names k\n1\n"]
WORDS = {
    "cnf": [b"0", b"1", b"-1", b"2", b"p", b"cnf", b"16777216", b"-16777217", b"01", b"-0", b"2147483648", b"c", b"\nc", b"\r", b"+1"],
    "trace": [b"0", b"1", b"-1", b"2", b"3", b"9", b"*", b"**", b"2147483647", b"2147483648", b"16777217", b"-16777216", b"01", b"\n", b"x"],
    "design": [b"a", b"b", b"y", b".inputs", b".outputs", b".names", b".end", b".model", b".latch", b"\\\n", b"\\", b"#", b"1", b"0", b"-",
               b"\n.names q r\n1 1\n", b"\n.names y a\n0 0\n", b"\r\n", b"\x7f", b"11 1", b"\n.outputs q\n", b".exdc"],
}


def changed(data, kind):
    """The text with a few changes."""
    for _ in range(random.choice([0, 1, 1, 1, 2, 3])):
        pieces = re.findall(rb"[^ \t\r\n]+|[ \t\r\n]", data) or [b" "]
        at, change = random.randrange(len(pieces)), random.randrange(7)
        if change == 0:
            del pieces[at]
        elif change == 1:
            pieces.insert(at, b" " + random.choice(WORDS[kind]) + b" ")
        elif change == 2:
            pieces[at] = random.choice(WORDS[kind])
        elif change == 3:
            other = random.randrange(len(pieces))
            pieces[at], pieces[other] = pieces[other], pieces[at]
        elif change == 4:
            pieces = pieces[:at]
        elif change == 5:
            pieces[at] = bytes([random.randrange(256)])
        else:
            pieces[at] = pieces[at] * 2
        data = b"".join(pieces)
    return data


def crowded():
    """A design near one of the limits on ports and signals, or past it."""
    kind, many = random.randrange(3), random.randint(62, 66)
    names = lambda word, n: b" ".join(b"%s%d" % (word, k) for k in range(n))
    if kind == 0:
        return b".inputs %s\n.outputs i0\n" % names(b"i", many)
    if kind == 1:
        return b".outputs %s\n" % names(b"o", many) + b"".join(b".names o%d\n" % k for k in range(many))
    return b".inputs a\n.outputs y\n.names %s y\n" % b" ".join([b"a"] * many)


def checked(cnf, trace):
    """What `check c t` is to print, with its status."""
    try:
        formula = read_cnf(cnf)
    except Fault as fault:
        return "cnf c %s" % fault, 9
    try:
        clauses = read_trace(trace)
    except Fault as fault:
        return "trace t %s" % fault, 9
    shown = plain_verify.verdict(formula, clauses)
    return shown, 0 if shown == "verified" else 1


def compare_check(program, folder, seen):
    """What is wrong with the program's answer on a random CNF and trace; empty where it is right."""
    at = random.randrange(len(CNFS))
    cnf = changed(CNFS[at], "cnf") if random.randrange(3) == 0 else CNFS[at]
    trace = changed(TRACES[random.choice([at, random.randrange(len(TRACES))])], "trace")
    for name, data in [("c", cnf), ("t", trace)]:
        with open(os.path.join(folder, name), "wb") as out:
            out.write(data)
    line, status = checked(cnf, trace)
    word = line.split()[2 if status == 9 else 0] + ("" if status == 9 or status == 0 else " " + line.split()[1])
    seen[word] = seen.get(word, 0) + 1
    done = subprocess.run([program, "check", "c", "t"], cwd=folder, capture_output=True)
    if (done.stdout, done.returncode, done.stderr) != (line.encode() + b"\n", status, b""):
        return "check printed %r, not %r, on %r and %r" % (done.stdout, line, cnf, trace)
    return ""


def compare_place(program, folder, seen):
    """The same on a random design."""
    data = crowded() if random.randrange(20) == 0 else changed(random.choice(DESIGNS), "design")
    path = os.path.join(folder, "d")
    with open(path, "wb") as out:
        out.write(data)
    try:
        read_design(data)
    except Fault as fault:
        word = str(fault).split()[0]
        seen[word] = seen.get(word, 0) + 1
        done = subprocess.run([program, "place", "d", "1", "1", "1", "1", "1", "o"], cwd=folder, capture_output=True)
        if (done.stdout, done.returncode, done.stderr) != (b"blif d %s\n" % str(fault).encode(), 9, b""):
            return "place printed %r, not %s, on %r" % (done.stdout, fault, data)
        return ""
    design = plain_map.Design(data.decode("latin-1"))
    geometry = plain_map.least_geometry(plain_map.Mapping(design))
    seen["placed"] = seen.get("placed", 0) + 1
    if design.inputs > 8 or any(n > most for n, (_, most) in zip(geometry, plain_map.RESOURCES)):
        return ""
    fault = plain_map.judge(program, design, path, os.path.join(folder, "o"), geometry, random.choice([1, 2]), "fits")
    return fault and "%s, on %r" % (fault, data)


def compare(program, rounds, seed):
    random.seed(seed)
    seen = {}
    with tempfile.TemporaryDirectory() as folder:
        for _ in range(rounds):
            fault = random.choice([compare_check, compare_place])(program, folder, seen)
            if fault:
                print("seed %d: %s" % (seed, fault))
                return 1
    counts = ", ".join("%d %s" % (n, word) for word, n in sorted(seen.items()))
    print("plain_texts: %d random texts with %s, seed %d" % (rounds, counts, seed))
    return 0


def main(words):
    rounds = int(words[2]) if len(words) > 2 else 1000
    return compare(os.path.abspath(words[1]), rounds, int(words[3]) if len(words) > 3 else random.randrange(10**9))


if __name__ == "__main__":
    sys.exit(main(sys.argv[1:]))
