"""Circuits as covers, networks that look random, and the same networks restructured, all by fixed rules."""
import os
import random
import sys

sys.path.insert(0, os.path.join(os.path.dirname(os.path.abspath(__file__)), "..", "cases"))
import plain_demo


def numbered(letter, count):
    return ["%s%d" % (letter, i) for i in range(count)]


def rows_of_all(width):
    """All rows without a `-`, the first mark changing fastest."""
    return ["".join(str(k >> j & 1) for j in range(width)) for k in range(2 ** width)]


class Builder:
    """A circuit that grows cover by cover; the same cover is made once."""

    def __init__(self, inputs):
        self.inputs, self.covers, self.known = list(inputs), [], {}

    def node(self, ins, rows):
        """The name of a cover that is 1 where a row matches."""
        key = tuple(ins), tuple(rows)
        if key not in self.known:
            self.known[key] = "n%d" % len(self.covers)
            self.covers.append((key[0], self.known[key], key[1]))
        return self.known[key]

    def gate(self, function, *ins):
        return self.node(ins, [row.split()[0] for row in plain_demo.ROWS[function]])

    def text(self, outputs):
        """The text, in which each output is a cover of its own name: the one that it names, or one behind that."""
        names, behind = {}, []
        made = {name for _, name, _ in self.covers}
        for output, name in outputs:
            if name in made and name not in names:
                names[name] = output
            else:
                behind.append(((name,), output, ("1",)))
        lines = [".inputs " + " ".join(self.inputs), ".outputs " + " ".join(output for output, _ in outputs)]
        for ins, out, rows in self.covers + behind:
            lines.append(" ".join([".names"] + [names.get(name, name) for name in ins] + [names.get(out, out)]))
            lines += [row + " 1" if row else "1" for row in rows]
        return "\n".join(lines + [".end", ""])


def table_of_rows(rows, width):
    """Bit k is 1 where some row matches the value k; the first mark is that of bit 0."""
    hits = lambda row, k: all(mark == "-" or int(mark) == k >> j & 1 for j, mark in enumerate(row))
    return sum(1 << k for k in range(2 ** width) if any(hits(row, k) for row in rows))


def halves(table, at, width):
    """The tables where the input at this place is 0 and 1, over the other inputs."""
    found = [0, 0]
    for k in range(2 ** width):
        rest = k & (1 << at) - 1 | k >> at + 1 << at
        found[k >> at & 1] |= (table >> k & 1) << rest
    return found


def cover_of(table, width):
    """Rows that make the table, none of which can be left out: those of both halves by the last input, and those of
    what the halves share."""
    def between(least, most, width):
        if least == 0:
            return [], 0
        if most == (1 << 2 ** width) - 1:
            return ["-" * width], most
        (low, high), (low_most, high_most) = halves(least, width - 1, width), halves(most, width - 1, width)
        zeros, in_zeros = between(low & ~high_most, low_most, width - 1)
        ones, in_ones = between(high & ~low_most, high_most, width - 1)
        both, in_both = between(low & ~in_zeros | high & ~in_ones, low_most & high_most, width - 1)
        half = 2 ** (width - 1)
        done = in_zeros | in_both | (in_ones | in_both) << half
        return [row + "0" for row in zeros] + [row + "1" for row in ones] + [row + "-" for row in both], done
    return between(table, table, width)[0]


# functions that stand in designs: their rows
COMMON = [["11"], ["1-", "-1"], ["10"], ["0-", "-1"], ["10", "01"], ["00", "11"], ["01-", "1-1"], ["11-", "1-1", "-11"], ["11-", "--1"],
          ["1-1", "-11"], ["100", "010", "001", "111"], ["11--", "--11"], ["1-1-", "1--1", "-11-", "-1-1"], ["1111"], ["0110", "1001"],
          ["111-", "---1"], ["00--", "1-1-", "-1-1"]]


def random_network(rng, inputs, nodes):
    """Covers of common functions over signals that aren't far before them, and the signals that none reads."""
    signals, covers = numbered("i", inputs), []
    unread = set()
    for v in range(nodes):
        rows = rng.choice(COMMON)
        ins = rng.sample(signals[-3 * inputs // 2:], len(rows[0]))
        covers.append((ins, "m%d" % v, rows))
        signals.append("m%d" % v)
        unread = unread - set(ins) | {"m%d" % v}
    return covers, [name for name in signals if name in unread][-64:]


def as_it_is(rng, net, ins, rows):
    return net.node(ins, rows)


def in_twos(rng, net, ins, rows):
    """Each row as a tree of covers with two fan-ins, and the rows as another tree, in a random order."""
    def tree(names, end):
        # a name comes with the mark that it has in a row; `end` is what joins them
        while len(names) > 1:
            (a, x), (b, y) = names.pop(rng.randrange(len(names))), names.pop(rng.randrange(len(names)))
            names.append((net.node([a, b], [x + y] if end == "all" else ["1-", "-1"]), "1"))
        name, mark = names[0]
        return name if mark == "1" else net.node([name], ["0"])
    joined = [tree([(name, mark) for name, mark in zip(ins, row) if mark != "-"], "all") for row in rows]
    return tree([(name, "1") for name in joined], "any")


def by_choices(rng, net, ins, rows):
    """A tree of choices: a fan-in chooses between the two halves of the table."""
    def chosen(names, table):
        width = len(names)
        if table in (0, (1 << 2 ** width) - 1):
            return net.node([], [""] if table else [])
        if width == 1:
            return names[0] if table == 2 else net.node(names, ["0"])
        at = rng.randrange(width)
        rest, (low, high) = names[:at] + names[at + 1:], halves(table, at, width)
        if low == high:
            return chosen(rest, low)
        return net.gate("mux", names[at], chosen(rest, low), chosen(rest, high))
    return chosen(list(ins), table_of_rows(rows, len(ins)))


def by_zeros(rng, net, ins, rows):
    """The complement, as rows that are made anew, behind a cover that negates it."""
    width = len(ins)
    return net.node([net.node(ins, cover_of((1 << 2 ** width) - 1 - table_of_rows(rows, width), width))], ["0"])


def merged(covers, outputs):
    """Covers with one reader are taken into it, where it has six fan-ins at most then; its rows are made anew."""
    readers = {}
    for ins, out, _ in covers:
        for name in ins:
            readers.setdefault(name, []).append(out)
    bodies, gone = {}, set()
    for ins, out, rows in covers:
        ins, table = list(ins), table_of_rows(rows, len(ins))
        for name in list(ins):
            body = bodies.get(name)
            if body and name not in outputs and len(readers[name]) == 1:
                names = [other for other in ins if other != name] + [other for other in body[0] if other not in ins]
                if len(names) <= 6:
                    ins, table = names, composed(ins, table, name, body, names)
                    gone.add(name)
        bodies[out] = ins, table
    return [(bodies[out][0], out, cover_of(bodies[out][1], len(bodies[out][0]))) for _, out, _ in covers if out not in gone]


def composed(ins, table, name, body, names):
    """The table over these names where one of the old fan-ins is what its own table says."""
    found = 0
    for k in range(2 ** len(names)):
        bits = {other: k >> j & 1 for j, other in enumerate(names)}
        bits[name] = body[1] >> sum(bits[other] << j for j, other in enumerate(body[0])) & 1
        found |= (table >> sum(bits[other] << j for j, other in enumerate(ins)) & 1) << k
    return found


def text_of(rng, inputs, covers, outputs, ways):
    """The covers, each made anew in one of these ways."""
    net, names = Builder(inputs), {name: name for name in inputs}
    for ins, out, rows in covers:
        names[out] = rng.choice(ways)(rng, net, [names[name] for name in ins], rows)
    return net.text([("y%d" % k, names[name]) for k, name in enumerate(outputs)])


def pairs():
    """Networks of three sizes, each in four ways, and a larger one."""
    ways = {"twos": [in_twos], "choices": [by_choices], "merged": [as_it_is], "mixed": [in_twos, by_choices, by_zeros]}
    for seed, (inputs, nodes) in enumerate([(12, 40), (20, 90), (32, 160), (48, 260)]):
        for name, taken in list(ways.items())[3 if seed == 3 else 0:]:
            rng = random.Random("%d %s" % (seed, name))
            covers, outputs = random_network(random.Random(seed), inputs, nodes)
            names = numbered("i", inputs)
            spec = text_of(rng, names, covers, outputs, [as_it_is])
            others = merged(covers, outputs) if name in ("merged", "mixed") else covers
            yield "random-%d-%s" % (nodes, name), spec, text_of(rng, names, others, outputs, taken)
