"""Pairs of equal circuits, made by fixed rules: the same function in two architectures, or restructured.

`made()` has each pair as a name and two texts, a specification and a design. `first_difference` evaluates both for
many inputs at once, `mutants` has designs in which one mark of one row is another one.
"""
import os
import random
import sys

sys.path.insert(0, os.path.join(os.path.dirname(os.path.abspath(__file__)), "..", "cases"))
import plain_demo
import plain_map
import restructured
from restructured import Builder, numbered

LANES = 1 << 16


def adder(bits, carries):
    """Sums from the carries that `carries` makes of what each bit generates and propagates."""
    net = Builder(numbered("a", bits) + numbered("b", bits))
    generates = [net.gate("and2", "a%d" % i, "b%d" % i) for i in range(bits)]
    propagates = [net.gate("xor2", "a%d" % i, "b%d" % i) for i in range(bits)]
    into = carries(net, generates, propagates)
    sums = [propagates[0]] + [net.gate("xor2", propagates[i], into[i]) for i in range(1, bits)]
    return net.text([("s%d" % i, sums[i]) for i in range(bits)] + [("cout", into[bits])])


def joined(net, high, low):
    """What two groups of bits generate and propagate together."""
    return net.node([high[0], high[1], low[0]], ["1--", "-11"]), net.gate("and2", high[1], low[1])


def doubling(net, generates, propagates):
    """Carries by groups whose length doubles at each level, one ending at each bit."""
    groups, distance = list(zip(generates, propagates)), 1
    while distance < len(groups):
        groups = groups[:distance] + [joined(net, groups[i], groups[i - distance]) for i in range(distance, len(groups))]
        distance *= 2
    return [None] + [group[0] for group in groups]


def halving(net, generates, propagates):
    """Carries by groups of which, at each level, the upper half takes the end of the lower half."""
    groups, distance = list(zip(generates, propagates)), 1
    while distance < len(groups):
        ends = [(i & ~(2 * distance - 1)) + distance - 1 for i in range(len(groups))]
        groups = [joined(net, groups[i], groups[ends[i]]) if i & distance else groups[i] for i in range(len(groups))]
        distance *= 2
    return [None] + [group[0] for group in groups]


def skipping(net, generates, propagates):
    """Carries from bit to bit, which skip a block of four bits that all propagate."""
    into = [None, generates[0]]
    for i in range(1, len(generates)):
        into.append(net.node([generates[i], propagates[i], into[i]], ["1--", "-11"]))
        if i % 4 == 3 and i > 3:
            block = net.node(propagates[i - 3:i + 1], ["1111"])
            into[i + 1] = net.gate("mux", block, into[i + 1], into[i - 3])
    return into


def compared(bits, ways):
    """Whether a is less, equal and greater, from what `ways` makes of the bits."""
    net = Builder(numbered("a", bits) + numbered("b", bits))
    return net.text(list(zip(["less", "equal", "greater"], ways(net, bits))))


def by_chain(net, bits):
    """From the least bit on; greater is neither less nor equal."""
    less, equal = net.node(["a0", "b0"], ["01"]), net.gate("xnor2", "a0", "b0")
    for i in range(1, bits):
        less = net.node(["a%d" % i, "b%d" % i, less], ["01-", "001", "111"])
        equal = net.node(["a%d" % i, "b%d" % i, equal], ["001", "111"])
    return less, equal, net.node([less, equal], ["00"])


def by_halves(net, bits):
    """A tree over halves of the bits, for less and for greater."""
    def pair_of(lo, hi):
        if hi - lo == 1:
            ins = ["a%d" % lo, "b%d" % lo]
            return net.node(ins, ["01"]), net.gate("xnor2", *ins), net.node(ins, ["10"])
        low, high = pair_of(lo, (lo + hi) // 2), pair_of((lo + hi) // 2, hi)
        order = [net.node([high[k], high[1], low[k]], ["1--", "-11"]) for k in (0, 2)]
        return order[0], net.gate("and2", high[1], low[1]), order[1]
    return pair_of(0, bits)


def by_first(net, bits):
    """The first bit from above at which they differ, and one wide cover for each answer."""
    above, less, greater = None, [], []
    for i in reversed(range(bits)):
        ins = ["a%d" % i, "b%d" % i] + ([above] if above else [])
        less.append(net.node(ins, ["011"[:len(ins)]]))
        greater.append(net.node(ins, ["101"[:len(ins)]]))
        above = net.node(ins, ["001"[:len(ins)], "111"[:len(ins)]])
    either = ["-" * k + "1" + "-" * (bits - 1 - k) for k in range(bits)]
    return net.node(less, either), above, net.node(greater, either)


def by_borrow(net, bits):
    """The borrow of the difference, of each bit from the one before it; equal where no bit of the difference is 1."""
    borrow, ones = net.node(["a0", "b0"], ["01"]), [net.gate("xor2", "a0", "b0")]
    for i in range(1, bits):
        ins = ["a%d" % i, "b%d" % i, borrow]
        ones.append(net.gate("xor3", *ins))
        borrow = net.node(ins, ["01-", "0-1", "-11"])
    equal = net.node(ones, ["0" * bits])
    return borrow, equal, net.node([borrow, equal], ["00"])


def multiplexer(selects, way):
    """The value that the selecting inputs choose of all others."""
    names = numbered("c", selects), numbered("d", 2 ** selects)
    net = Builder(names[0] + names[1])
    values = names[1]
    if way == "flat":
        row = lambda k: "".join(str(k >> j & 1) for j in range(selects))
        rows = [row(k) + "-" * k + "1" + "-" * (len(values) - 1 - k) for k in range(len(values))]
        return net.text([("y", net.node(names[0] + values, rows))])
    for k in range(selects) if way == "low" else reversed(range(selects)):
        half = len(values) // 2
        pairs = zip(values[::2], values[1::2]) if way == "low" else zip(values[:half], values[half:])
        values = [net.gate("mux", names[0][k], *pair) for pair in pairs]
    return net.text([("y", values[0])])


def decoder(bits, flat):
    """One output for each value of the inputs, where it is enabled."""
    names = numbered("c", bits)
    net = Builder(names + ["on"])
    marks = lambda k, width: "".join(str(k >> j & 1) for j in range(width))
    if flat:
        found = [net.node(names + ["on"], [marks(k, bits) + "1"]) for k in range(2 ** bits)]
    else:
        half = bits // 2
        lower = [net.node(names[:half], [marks(k, half)]) for k in range(2 ** half)]
        upper = [net.node(names[half:] + ["on"], [marks(k, bits - half) + "1"]) for k in range(2 ** (bits - half))]
        found = [net.gate("and2", low, high) for high in upper for low in lower]
    return net.text([("y%d" % k, name) for k, name in enumerate(found)])


def parity(bits, form):
    """An exclusive or of all inputs: one after another, as a tree, or four at once."""
    net = Builder(numbered("i", bits))
    names, width = list(net.inputs), 4 if form == "wide" else 2
    while len(names) > 1:
        taken, names = names[:width], names[width:]
        odd = [row for row in restructured.rows_of_all(len(taken)) if row.count("1") % 2 == 1]
        names = [net.node(taken, odd)] + names if form == "chain" else names + [net.node(taken, odd)]
    return net.text([("y", names[0])])


def added(net, bits):
    """The sum and the carry of two or three bits."""
    return net.gate("xor%d" % len(bits), *bits), net.gate("and2" if len(bits) == 2 else "maj", *bits)


def multiplier(bits, way):
    net = Builder(numbered("a", bits) + numbered("b", bits))
    products = [[net.gate("and2", "a%d" % i, "b%d" % j) for i in range(bits)] for j in range(bits)]
    places = {"rows": summed_rows, "saved": saved_rows, "columns": summed_columns}[way](net, products)
    return net.text([("p%d" % k, name) for k, name in enumerate(places)])


def summed_rows(net, products):
    """Row after row is added, each with its carries handed on from bit to bit."""
    done, running = [products[0][0]], products[0][1:]
    for row in products[1:]:
        carry, sums = None, []
        for k, bit in enumerate(row):
            taken = [name for name in [bit, running[k] if k < len(running) else None, carry] if name]
            total, carry = added(net, taken) if len(taken) > 1 else (taken[0], None)
            sums.append(total)
        done, running = done + sums[:1], sums[1:] + [carry]
    return done + running


def saved_rows(net, products):
    """Row after row is added, the carries are kept for the next row, and handed on at the end."""
    bits, done = len(products), []
    sums, carries = products[0] + [None], [None] * bits
    for row in products[1:]:
        done, columns = done + sums[:1], [[row[k], sums[k + 1], carries[k]] for k in range(bits)]
        pairs = [[name for name in column if name] for column in columns]
        pairs = [added(net, taken) if len(taken) > 1 else (taken[0], None) for taken in pairs]
        sums, carries = [pair[0] for pair in pairs] + [None], [pair[1] for pair in pairs]
    done, carry = done + sums[:1], None
    for k in range(bits):
        taken = [name for name in [sums[k + 1], carries[k], carry] if name]
        total, carry = added(net, taken) if len(taken) > 1 else (taken[0], None)
        done.append(total)
    return done


def summed_columns(net, products):
    """Each column is added up three bits at a time, the oldest first."""
    bits, done = len(products), []
    columns = [[products[j][k - j] for j in range(bits) if 0 <= k - j < bits] for k in range(2 * bits)]
    for k, column in enumerate(columns):
        while len(column) > 1:
            total, carry = added(net, column[:3])
            column[:] = column[3:] + [total]
            columns[k + 1].append(carry)
        done.append(column[0])
    return done


def adders():
    ways = {"ripple": lambda bits: plain_demo.text("ripple", bits), "select": lambda bits: plain_demo.text("select", bits)}
    for name, carries in [("doubling", doubling), ("halving", halving), ("skipping", skipping)]:
        ways[name] = lambda bits, carries=carries: adder(bits, carries)
    for bits, spec, design in [(8, "ripple", "doubling"), (16, "ripple", "doubling"), (16, "ripple", "halving"), (24, "ripple", "halving"),
                               (16, "ripple", "skipping"), (16, "select", "doubling"), (16, "doubling", "halving")]:
        yield "adder-%d-%s-%s" % (bits, spec, design), ways[spec](bits), ways[design](bits)


def comparators():
    ways = {"chain": by_chain, "halves": by_halves, "first": by_first, "borrow": by_borrow}
    for bits, spec, design in [(8, "chain", "halves"), (16, "chain", "halves"), (32, "halves", "chain"),
                               (16, "chain", "first"), (16, "first", "borrow"), (24, "halves", "borrow")]:
        yield "comparator-%d-%s-%s" % (bits, spec, design), compared(bits, ways[spec]), compared(bits, ways[design])


def made():
    """All pairs: a name, a specification and a design."""
    yield from adders()
    yield from comparators()
    for selects, spec, design in [(2, "low", "flat"), (3, "low", "flat"), (4, "low", "flat"), (5, "low", "flat"),
                                  (4, "low", "high"), (5, "flat", "high")]:
        yield "multiplexer-%d-%s-%s" % (2 ** selects, spec, design), multiplexer(selects, spec), multiplexer(selects, design)
    for bits in (3, 4, 5, 6):
        yield "decoder-%d" % bits, decoder(bits, True), decoder(bits, False)
    for bits in (16, 40):
        for spec, design in [("chain", "tree"), ("chain", "wide"), ("tree", "wide")]:
            yield "parity-%d-%s-%s" % (bits, spec, design), parity(bits, spec), parity(bits, design)
    for bits, spec, design in [(4, "rows", "columns"), (4, "rows", "saved"), (4, "saved", "columns"),
                               (5, "rows", "columns"), (5, "rows", "saved")]:
        yield "multiplier-%d-%s-%s" % (bits, spec, design), multiplier(bits, spec), multiplier(bits, design)
    yield from restructured.pairs()


def values_of(design, words):
    """The outputs for many inputs at once: bit k of each word belongs to the k-th of them."""
    known, every = list(words), (1 << LANES) - 1
    for fan_ins, on, rows in design.nodes:
        hit = 0
        for row in rows:
            all_of = every
            for signal, mark in zip(fan_ins, row):
                if mark != "-":
                    all_of &= known[signal] if mark == "1" else ~known[signal]
            hit |= all_of
        known.append(hit if on else every & ~hit)
    return [known[signal] for signal in design.outputs]


def counted(i):
    """Bit k is bit i of k."""
    run = 1 << i
    if run >= LANES:
        return 0
    return ((1 << LANES) - 1) // ((1 << 2 * run) - 1) * ((1 << run) - 1 << run)


def first_difference(spec, design):
    """An input at which two texts with the same names in the same order differ, or none where none was found: of few
    inputs all are tried, else so many random ones. In both, covers stand behind those that they name."""
    spec, design = plain_map.Design(spec), plain_map.Design(design)
    assert spec.inputs == design.inputs and len(spec.outputs) == len(design.outputs)
    rng = random.Random(1)
    words = [counted(i) for i in range(spec.inputs)]
    if 1 << spec.inputs > LANES:
        words = [rng.getrandbits(LANES) for _ in range(spec.inputs)]
    differ = 0
    for ours, theirs in zip(values_of(spec, words), values_of(design, words)):
        differ |= ours ^ theirs
    at = (differ & -differ).bit_length() - 1
    return "".join(str(word >> at & 1) for word in words) if differ else None


def changed(rng, text):
    """The text with another mark in one row."""
    lines = text.split("\n")
    row = rng.choice([k for k, line in enumerate(lines) if line.endswith((" 0", " 1")) and line[0] in "01-"])
    at = rng.randrange(lines[row].index(" "))
    mark = rng.choice([mark for mark in "01-" if mark != lines[row][at]])
    lines[row] = lines[row][:at] + mark + lines[row][at + 1:]
    return "\n".join(lines)


def mutants(pairs, count):
    """So many designs that differ from their specification, from all pairs in turn: a name and two texts."""
    rng, found = random.Random(2), 0
    while found < count:
        for name, spec, design in pairs:
            text = changed(rng, design)
            if found < count and first_difference(spec, text):
                found += 1
                yield "%s-mutant-%d" % (name, found), spec, text
