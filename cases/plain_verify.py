#!/usr/bin/env python3
"""A plain, slow judge of bundles and traces, and random ones on which the program must say the same.

    cases/plain_verify.py PROGRAM [ROUNDS [SEED]]

The judge follows docs/formats.md in the plainest way and shares no code with the program: clauses are sets,
a trace is a list, the miter is made clause by clause, and each trace is checked from its first clause to its
last. Each round takes the refutation of the inverter's miter, changes it at random (literals, antecedents,
indices, the sign in place of literals, clauses left out or moved), and asks `check`, and `verify` with several
counts of workers. Every eighth trace has clauses with the sign in rounds that are wide enough to be divided among
workers. It prints the seed, so that a difference can be found again.
"""
import hashlib
import os
import random
import struct
import subprocess
import sys
import tempfile

HERE = os.path.dirname(os.path.abspath(__file__))
SPEC = b".inputs a\n.outputs y\n.names a y\n0 1\n.end\n"
WORKERS = [1, 2, 3, 64]
# the inverter in a fabric with one of everything, of cells of four inputs and of six
CONFIGS = {
    1: bytes.fromhex("00010001" "0000000000005555" "00020001"),
    2: bytes.fromhex("00010001" "00000000000000000000" "5555555555555555" "00020001"),
}


class Net:
    """The inverter: one input, one node with the row `0`, which hits where the output is 1, and one output."""
    inputs, nodes, outputs = 1, [{"fan_ins": [0], "on": True, "rows": ["0"]}], [1]


def sources(geometry, kind, words):
    """The sources of the cells' pins, the tables, and the sources of the output pads."""
    columns, rows, tracks, _, outputs = geometry
    pins, table_words = (4, 1) if kind == 1 else (6, 4)
    at = iter(words)
    channel = [None if w == 0 else ("pad", w - 1) for w in (next(at) for _ in range(tracks))]
    cells = []
    for column in range(columns):
        for _ in range(rows):
            listened = [None if w == 0 else channel[w - 1] for w in (next(at) for _ in range(pins))]
            table = 0
            for _ in range(table_words):
                table = table * 65536 + next(at)
            cells.append((listened, table))
        taken = [next(at) for _ in range(tracks)]
        channel = [None if w == 0 else channel[t] if w == 1 else ("cell", column * rows + w - 2)
                   for t, w in enumerate(taken)]
    return cells, [None if w == 0 else channel[w - 1] for w in (next(at) for _ in range(outputs))]


def cone_of(cells, outputs):
    cone, todo = set(), [s[1] for s in outputs if s and s[0] == "cell"]
    while todo:
        cell = todo.pop()
        if cell not in cone:
            cone.add(cell)
            todo += [s[1] for s in cells[cell][0] if s and s[0] == "cell"]
    return sorted(cone)


def miter(net, cells, outputs):
    """The number of variables and the clauses of the miter, each a frozen set."""
    cone = cone_of(cells, outputs)
    signal = lambda s: 2 + s
    node_of = lambda v: signal(net.inputs + v)
    rows = [(v, r) for v, node in enumerate(net.nodes) for r in range(len(node["rows"]))]
    first_row = 2 + net.inputs + len(net.nodes)
    row_of = {place: first_row + k for k, place in enumerate(rows)}
    first_cell = first_row + len(rows)
    cell_of = {cell: first_cell + k for k, cell in enumerate(cone)}
    first_difference = first_cell + len(cone)

    def source(s):
        if s is None or (s[0] == "pad" and s[1] >= net.inputs):
            return 1
        return signal(s[1]) if s[0] == "pad" else cell_of[s[1]]

    clauses = [[-1]]
    for v, node in enumerate(net.nodes):
        for r, row in enumerate(node["rows"]):
            asked = [signal(s) if mark == "1" else -signal(s) for mark, s in zip(row, node["fan_ins"]) if mark != "-"]
            clauses += [[-row_of[v, r], lit] for lit in asked]
            clauses.append([row_of[v, r]] + [-lit for lit in asked])
        sign = 1 if node["on"] else -1
        hits = [row_of[v, r] for r in range(len(node["rows"]))]
        clauses.append([-sign * node_of(v)] + hits)
        clauses += [[sign * node_of(v), -hit] for hit in hits]
    for cell in cone:
        pins, table = cells[cell]
        for k in range(2 ** len(pins)):
            lits = [-source(s) if k >> j & 1 else source(s) for j, s in enumerate(pins)]
            clauses.append(lits + [cell_of[cell] if table >> k & 1 else -cell_of[cell]])
    for o, s in enumerate(net.outputs):
        a, b, d = signal(s), source(outputs[o]), first_difference + o
        clauses += [[-d, a, b], [-d, -a, -b], [d, -a, b], [d, a, -b]]
    clauses.append([first_difference + o for o in range(len(net.outputs))])
    return first_difference + len(net.outputs) - 1, [frozenset(c) for c in clauses]


def verdict(formula, trace):
    """What a trace shows of a list of clauses, as the program says it. A clause of the trace is its index, its
    set of literals or None for the sign, and the places of its antecedents."""
    computed = []
    for index, stated, antecedents in trace:
        if not antecedents:
            if stated not in formula:
                return "refused not-original %d" % index
            computed.append(stated)
            continue
        running = computed[antecedents[0]]
        for step, place in enumerate(antecedents[1:], 1):
            other = computed[place]
            clashing = [lit for lit in running if -lit in other]
            if not clashing:
                return "refused no-clash %d %d" % (index, step)
            if len(clashing) > 1:
                return "refused many-clash %d %d" % (index, step)
            running = (running - {clashing[0]}) | (other - {-clashing[0]})
        if stated is not None and running != stated:
            return "refused other-clause %d" % index
        computed.append(running)
    return "verified" if computed and not computed[-1] else "refused not-empty-end"


def read_trace(text):
    """The clauses of a text that has no fault, with antecedents as indices."""
    tokens, trace, at = text.split(), [], 0
    while at < len(tokens):
        index, at, stated = int(tokens[at]), at + 1, None
        if tokens[at] == "*":
            at += 1
        else:
            end = tokens.index("0", at)
            stated, at = [int(x) for x in tokens[at:end]], end + 1
        end = tokens.index("0", at)
        trace.append([index, stated, [int(x) for x in tokens[at:end]]])
        at = end + 1
    return trace


def judged(trace):
    """The fault of the first clause with an index that is there already or an antecedent that isn't; else the
    clauses with places of antecedents."""
    places, clauses = {}, []
    for index, stated, antecedents in trace:
        if index in places:
            return "trace repeated %d" % index, None
        for antecedent in antecedents:
            if antecedent not in places:
                return "trace unknown %d %d" % (index, antecedent), None
        clauses.append((index, None if stated is None else frozenset(stated), [places[x] for x in antecedents]))
        places[index] = len(clauses) - 1
    return None, clauses


def text_of(trace):
    lines = []
    for index, stated, antecedents in trace:
        middle = ["*"] if stated is None else [str(x) for x in stated] + ["0"]
        lines.append(" ".join([str(index), *middle, *(str(x) for x in antecedents), "0"]))
    return "".join(line + "\n" for line in lines)


def change(trace, variables):
    """One change at random."""
    k = random.randrange(len(trace))
    index, stated, antecedents = trace[k]
    kind = random.randrange(8)
    if kind < 2 and antecedents:
        trace[k] = [index, None, antecedents]
    elif kind == 2 and stated is not None:
        trace[k] = [index, stated + [random.choice([-1, 1]) * random.randint(1, variables)], antecedents]
    elif kind == 3 and stated:
        trace[k] = [index, [x for x in stated if x != random.choice(stated)], antecedents]
    elif kind == 4 and antecedents:
        other = list(antecedents)
        other[random.randrange(len(other))] = random.choice(trace)[0]
        trace[k] = [index, stated, other]
    elif kind == 5 and len(antecedents) > 1:
        other = list(antecedents)
        random.shuffle(other)
        trace[k] = [index, stated, other]
    elif kind == 6:
        del trace[k]
    elif kind == 7:
        trace.insert(random.randint(0, len(trace)), [random.randint(1, 99), stated, antecedents])
    return trace


def widened(trace):
    """The trace with clauses that have the sign before its last one, in few rounds of many, each of which goes forth
    and back between two literals that the originals 2 and 3 make equal; then its last clause rests on one of them."""
    rounds, width, steps = random.randint(1, 3), random.randint(32, 80), random.randint(130, 200)
    last, wide = trace.pop(), []
    for k in range(rounds * width):
        first = 27 if k < width or random.random() < 0.1 else random.choice(wide[-width:])[0]
        wide.append([100 + k, None, [first] + [2, 3] * steps])
    return trace + wide + [[last[0], last[1], [wide[-1][0], *last[2][1:]]]]


def bundle(version, config, trace):
    whole = b"PCHB" + struct.pack(">6H", version, 1, 1, 1, 1, 1)
    whole += struct.pack(">I", len(config)) + config + struct.pack(">I", len(trace)) + trace
    return whole + hashlib.sha256(whole).digest()


def main():
    program, rounds = sys.argv[1], int(sys.argv[2]) if len(sys.argv) > 2 else 100
    seed = int(sys.argv[3]) if len(sys.argv) > 3 else random.randrange(10**9)
    random.seed(seed)
    with open(os.path.join(HERE, "..", "crates", "pch", "data", "inverter.trace")) as file:
        right = file.read()
    runs = 0
    with tempfile.TemporaryDirectory() as folder:
        names = [os.path.join(folder, name) for name in ("s", "b", "c", "t")]
        for turn in range(rounds):
            kind = random.choice([1, 2])
            config = CONFIGS[kind]
            cells, outputs = sources((1, 1, 1, 1, 1), kind, struct.unpack(">%dH" % (len(config) // 2), config))
            variables, formula = miter(Net, cells, outputs)
            cnf = "p cnf %d %d\n" % (variables, len(formula))
            cnf += "".join(" ".join(map(str, sorted(c, key=abs))) + " 0\n" for c in formula)
            trace = read_trace(right)
            if turn % 8 == 0:
                trace = widened(trace)
            for _ in range(random.randrange(4)):
                if trace:
                    trace = change(trace, variables)
            fault, clauses = judged(trace)
            shown = fault or verdict(set(formula), clauses)
            text = text_of(trace).encode()
            compact = any(stated is None for _, stated, _ in trace)
            calls = [(["check", names[2], names[3]], shown.replace("trace ", "trace %s " % names[3], 1) if fault else shown)]
            version = 3 if kind == 2 else 2 if compact else random.choice([1, 2])
            calls += [(["six"] * (kind - 1) + ["verify", names[0], names[1], "1", "1", "1", "1", "1", str(n)], "refused " + fault if fault else shown)
                      for n in WORKERS]
            contents = [SPEC, bundle(version, config, text), cnf.encode(), text]
            for name, content in zip(names, contents):
                with open(name, "wb") as file:
                    file.write(content)
            for words, line in calls:
                done = subprocess.run([program, *words], capture_output=True, text=True)
                runs += 1
                if done.stdout != line + "\n" or done.stderr:
                    print("seed %d: %s printed %r, not %r, on the trace\n%s" % (seed, words[0], done.stdout, line, text.decode()))
                    return 1
    print("plain_verify: %d runs on %d random traces, seed %d" % (runs, rounds, seed))
    return 0


if __name__ == "__main__":
    sys.exit(main())
