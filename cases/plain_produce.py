#!/usr/bin/env python3
"""Random pairs of small designs, and a judge of what `produce` answers for them.

    cases/plain_produce.py PROGRAM [ROUNDS [SEED]]

The second of a pair has the names of the first in another order, and its covers are written anew; some have one row
of a table changed, and some one name. Each pair is produced on both kinds of cells, on the fabric with just enough
of everything: with the budget that is enough, with smaller ones down to 1, and where a resource is wanting. The
judge evaluates both designs for every input, maps by plain_map.py, and makes the miter and resolves each chain by
plain_verify.py; it shares no code with the program. It prints its seed, so that a difference can be found again.
"""
import os
import random
import re
import subprocess
import sys
import tempfile

import plain_map
import plain_session
import plain_verify
from plain_map import expect


class Circuit:
    """Names of inputs and outputs, and covers: names of fan-ins, a name, and the values for 0, 1, 2 .. of the
    fan-ins, of which the first is the least significant."""

    def __init__(self, inputs, outputs, covers):
        self.inputs, self.outputs, self.covers = inputs, outputs, covers

    def text(self):
        return ".inputs %s\n.outputs %s\n%s.end\n" % (
            " ".join(self.inputs), " ".join(self.outputs), "".join(cover_text(*cover) for cover in self.covers))

    def ordered_as(self, other):
        """The same covers, with the inputs and outputs in the order of another circuit."""
        return Circuit(other.inputs, other.outputs, self.covers)


def cover_text(ins, out, values):
    """A cover with a row for each value that is 1, or for each that is 0."""
    end = random.choice("01")
    rows = ["".join(str(k >> j & 1) for j in range(len(ins))) for k, value in enumerate(values) if str(value) == end]
    if end == "0" and not rows:
        # no row says that the output is 0
        end, rows = "1", ["-" * len(ins)]
    return ".names %s\n" % " ".join(ins + [out]) + "".join((row + " " if ins else "") + end + "\n" for row in rows)


def random_circuit():
    inputs = ["i%d" % i for i in range(random.randint(0, 4))]
    names, covers = list(inputs), []
    for v in range(random.randint(1, 5)):
        ins = random.sample(names, random.randint(0, min(4, len(names))))
        covers.append((ins, "n%d" % v, [random.randint(0, 1) for _ in range(2 ** len(ins))]))
        names.append("n%d" % v)
    return Circuit(inputs, random.sample(names, random.randint(1, min(3, len(names)))), covers)


def rewritten(circuit):
    """The same circuit with its names in another order, and with each cover's fan-ins in another order or behind
    covers that negate them twice."""
    covers = []
    for ins, out, values in circuit.covers:
        order = random.sample(range(len(ins)), len(ins))
        moved = [values[sum((k >> at & 1) << j for at, j in enumerate(order))] for k in range(2 ** len(ins))]
        taken = [ins[j] for j in order]
        if taken and random.random() < 0.3:
            first = taken[0]
            covers += [([first], "%s_%s" % (out, first), [1, 0])]
            taken = ["%s_%s" % (out, first)] + taken[1:]
            moved = [moved[k ^ 1] for k in range(len(moved))]
        covers.append((taken, out, moved))
    inputs, outputs = list(circuit.inputs), list(circuit.outputs)
    random.shuffle(inputs)
    random.shuffle(outputs)
    return Circuit(inputs, outputs, covers)


def spoiled(circuit):
    """The circuit with one value of a cover changed, or with another name of an input or an output."""
    if circuit.inputs and random.random() < 0.2:
        old = random.choice(circuit.inputs)
        new = lambda name: "other" if name == old else name
        return Circuit([new(i) for i in circuit.inputs], circuit.outputs if old not in circuit.outputs else ["other" if o == old else o for o in circuit.outputs],
                       [([new(i) for i in ins], out, values) for ins, out, values in circuit.covers])
    covers = [(ins, out, list(values)) for ins, out, values in circuit.covers]
    values = random.choice(covers)[2]
    values[random.randrange(len(values))] ^= 1
    return Circuit(circuit.inputs, circuit.outputs, covers)


def lone_name(spec, design):
    """The line of the first name without a partner, if there is one."""
    for what, names, others in [("input", spec.inputs, design.inputs), ("output", spec.outputs, design.outputs)]:
        for side, these, those in [("spec", names, others), ("design", others, names)]:
            for place, name in enumerate(these):
                if name not in those:
                    return "interface %s %s %d" % (what, side, place)
    return None


def outputs_of(design, bits):
    return "".join(map(str, design.values(bits)))


def differing(spec, design):
    """The inputs at which both differ, as words."""
    found = []
    for x in range(2 ** spec.inputs):
        bits = [x >> i & 1 for i in range(spec.inputs)]
        if spec.values(bits) != design.values(bits):
            found.append("".join(map(str, bits)))
    return found


def words_of_log(trace):
    """The words of the derived clauses."""
    return sum(3 + len(stated) + len(antecedents) for _, stated, antecedents in trace if antecedents)


def check_trace(text, formula, ends):
    """The originals are the formula under its numbers, each derived clause has its chain, and no two are the same;
    the answer is the words of the derived ones."""
    trace = plain_verify.read_trace(text)
    fault, clauses = plain_verify.judged(trace)
    expect(fault is None, "the trace has a fault: %s" % fault)
    originals = [(index, stated) for index, stated, antecedents in clauses if not antecedents]
    expect(originals == list(enumerate(formula, 1)), "the originals aren't the miter")
    shown = plain_verify.verdict(set(formula), clauses)
    expect(shown == ends, "the trace shows %s, not %s" % (shown, ends))
    derived = [stated for _, stated, antecedents in clauses if antecedents]
    expect(len(set(derived)) == len(derived), "two derived clauses are the same")
    return words_of_log(trace)


class Pair:
    """A specification and a design as files, on a fabric with cells of one kind."""

    def __init__(self, program, folder, spec, design, kind):
        self.program, self.folder, self.kind = program, folder, kind
        texts = {"s": spec.text(), "d": design.text()}
        for name, text in texts.items():
            with open(os.path.join(folder, name), "w", encoding="ascii") as file:
                file.write(text)
        self.net = plain_session.Net(texts["s"])
        self.lone = lone_name(spec, design)
        if not self.lone:
            # the design's text with its names in the specification's order
            heads = ".inputs %s\n.outputs %s\n" % (" ".join(spec.inputs), " ".join(spec.outputs))
            self.aligned = plain_map.Design(heads + texts["d"].split("\n", 2)[2])
            self.mapping = plain_map.Mapping(self.aligned)
            self.geometry = plain_map.least_geometry(self.mapping)
            # the miter is that of every placed design: the choice of tracks leaves the sources as they are
            self.variables, self.formula = self.miter(plain_map.place(self.mapping, self.geometry, kind))
            self.enough = 2 ** (self.net.inputs + 1) * (self.variables + self.net.inputs + 5)
            self.differ = differing(self.net.design, self.aligned)
        else:
            self.geometry = (1, 1, 1, 1, 1)

    def call(self, command, *words):
        done = subprocess.run([self.program, *["six"] * (self.kind - 1), command, *map(str, words)], cwd=self.folder,
                              capture_output=True, text=True)
        expect(not done.stderr, "standard error has %r" % done.stderr)
        return done.returncode, done.stdout

    def produce(self, geometry, budget):
        with open(os.path.join(self.folder, "o"), "wb") as file:
            file.write(b"old")
        status, line = self.call("produce", "s", "d", *geometry, budget, "o")
        with open(os.path.join(self.folder, "o"), "rb") as file:
            saved = file.read()
        expect((saved == b"old") == (status not in (0, 8)), "status %d, and the file o" % status)
        return status, line, saved

    def miter(self, config):
        cells, outputs = plain_verify.sources(self.geometry, self.kind, plain_session.words_of(config))
        return plain_verify.miter(self.net, cells, outputs)

    def check_bundle(self, line, saved, budget):
        """The bundle is accepted, and the words of its log are in the budget."""
        expect(line == "written %d\n" % len(saved), "printed %r" % line)
        expect(not self.differ, "a bundle of circuits that differ")
        fault, parts = plain_session.bundle_fault(saved)
        expect(fault is None, "the bundle has the fault %s" % fault)
        version, geometry, config, trace = parts
        expect(version == (1 if self.kind == 1 else 3) and tuple(geometry) == self.geometry, "version or geometry")
        plain_map.check(self.aligned, config, self.geometry, self.kind)
        used = check_trace(trace.decode(), self.formula, "verified")
        expect(used <= budget, "%d words" % used)
        status, said = self.call("verify", "s", "o", *self.geometry, random.choice([1, 4]))
        expect((status, said) == (0, "verified\n"), "verify printed %r" % said)
        return used

    def check_difference(self, line):
        said = re.fullmatch(r"differs (\S+) (\S+) (\S+)\n", line)
        expect(said, "printed %r" % line)
        x = said[1].replace("-", "")
        expect(x in self.differ, "no difference at %s" % x)
        bits = [int(bit) for bit in x]
        expect(said[2] == outputs_of(self.net.design, bits) and said[3] == outputs_of(self.aligned, bits), "printed %r" % line)

    def check_spent(self, line, saved, budget):
        said = re.fullmatch(r"spent (\d+) (\d+)\n", line)
        expect(said, "printed %r" % line)
        used, need = int(said[1]), int(said[2])
        expect(budget < self.enough and 4 <= need <= 2 * self.variables + 4 and used <= budget < used + need, "printed %r" % line)
        expect(check_trace(saved.decode(), self.formula, "refused not-empty-end") == used, "other words than %d" % used)

    def judge(self, budget):
        """Judges the answer with this budget, and answers its name and the words that were used."""
        status, line, saved = self.produce(self.geometry, budget)
        if status == 0:
            return "bundles", self.check_bundle(line, saved, budget)
        if status == 6:
            self.check_difference(line)
            return "differences", None
        expect(status == 8, "status %d, printed %r" % (status, line))
        self.check_spent(line, saved, budget)
        return "spent budgets", None

    def run(self, counts):
        """All calls for this pair."""
        if self.lone:
            status, line, _ = self.produce(self.geometry, 1)
            expect((status, line) == (9, self.lone + "\n"), "status %d, printed %r, not %r" % (status, line, self.lone))
            counts["lone names"] = counts.get("lone names", 0) + 1
            return
        expect(self.enough <= 4194304, "too large a pair")
        answer, used = self.judge(self.enough)
        expect(answer == ("differences" if self.differ else "bundles"), "%s with enough" % answer)
        budgets = {1, random.randint(1, self.enough), random.randint(1, self.enough), self.enough - 1}
        if used:
            budgets |= {used, used - 1, used // 2}
        answers = [answer] + [self.judge(budget)[0] for budget in sorted(budgets - {0})]
        for budget in (min(self.enough + random.randint(1, 4000), 4194304), 4194304):
            more, _ = self.judge(budget)
            expect(more == answer, "%s with more than enough" % more)
            answers.append(more)
        at = random.randrange(5)
        if self.geometry[at] > 1:
            fewer = self.geometry[:at] + (self.geometry[at] - 1,) + self.geometry[at + 1:]
            status, line, _ = self.produce(fewer, self.enough)
            shown = plain_map.first_over(self.mapping, fewer)
            expect((status, line) == (7, shown + "\n"), "status %d, printed %r, not %r" % (status, line, shown))
            answers.append("refusals")
        for answer in answers:
            counts[answer] = counts.get(answer, 0) + 1


def main():
    program, rounds = os.path.abspath(sys.argv[1]), int(sys.argv[2]) if len(sys.argv) > 2 else 60
    seed = int(sys.argv[3]) if len(sys.argv) > 3 else random.randrange(10**9)
    random.seed(seed)
    counts = {}
    with tempfile.TemporaryDirectory() as folder:
        for _ in range(rounds):
            spec = random_circuit()
            design = rewritten(spec)
            if random.random() < 0.4:
                design = spoiled(design)
            for kind in (1, 2):
                pair = Pair(program, folder, spec, design, kind)
                try:
                    pair.run(counts)
                except ValueError as error:
                    print("seed %d: %s, on the pair\n%s%s" % (seed, error, spec.text(), design.text()))
                    return 1
    shown = ", ".join("%d %s" % (count, answer) for answer, count in sorted(counts.items()))
    print("plain_produce: %d random pairs, %s, seed %d" % (rounds, shown, seed))
    return 0


if __name__ == "__main__":
    sys.exit(main())
