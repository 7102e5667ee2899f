"""Networks and configurations that look random, made by fixed rules."""


def chain_net(rng, nodes):
    """Nodes of two rows over two signals before them: 64 inputs and 64 outputs."""
    names = ["i%d" % i for i in range(64)]
    lines = [".inputs " + " ".join(names)]
    covers = []
    for v in range(nodes):
        a, b = rng.sample(names[-256:], 2)
        covers.append(".names %s %s n%d\n10 1\n01 1" % (a, b, v))
        names.append("n%d" % v)
    lines.append(".outputs " + " ".join(names[-64:]))
    return "\n".join(lines + covers + [".end", ""])


def wide_net(rng, nodes):
    """Nodes of eight rows over ten inputs."""
    names = ["i%d" % i for i in range(64)]
    lines = [".inputs " + " ".join(names), ".outputs " + " ".join("n%d" % v for v in range(nodes - 64, nodes))]
    for v in range(nodes):
        lines.append(".names %s n%d" % (" ".join(rng.sample(names, 10)), v))
        lines += ["".join(rng.choice("01-") for _ in range(10)) + " 1" for _ in range(8)]
    return "\n".join(lines + [".end", ""])


def config(rng, c, r, t, i, o, fill, pins=4):
    """A random configuration of cells with so many pins; `fill` percent of the pins listen to a track."""
    words = [rng.randrange(i + 1) for _ in range(t)]
    for _ in range(c):
        for _ in range(r):
            words += [rng.randrange(1, t + 1) if rng.randrange(100) < fill else 0 for _ in range(pins)]
            words += [rng.randrange(65536) for _ in range(2**pins // 16)]
        for _ in range(t):
            kind = rng.randrange(100)
            words.append(1 if kind < 50 else rng.randrange(2, r + 2) if kind < 95 else 0)
    words += [rng.randrange(1, t + 1) for _ in range(o)]
    return b"".join(w.to_bytes(2, "big") for w in words)


def layered_net(rng, columns):
    """A network whose mapping fills so many columns of 64 cells, and all 256 tracks between most of them. In each
    column stand 62 nodes of four fan-ins, and one of the two cells of each of two nodes of five: their row's in
    an even column, and the one behind it. Each node listens to the column before its own, and most listen to the
    one three columns before that."""
    layers, covers = [["i%d" % i for i in range(64)]], []
    outputs = []
    for column in range(columns):
        before = [name for layer in layers[-4:] for name in layer]
        layer = []
        for v in range(62):
            name = "n%d" % len(covers)
            ins = [layers[-1][v], layers[max(0, len(layers) - 4)][v]] + [rng.choice(before) for _ in range(2)]
            rows = ["".join(rng.choice("01-") for _ in ins) + " 1\n" for _ in range(2)]
            covers.append(".names %s %s\n%s" % (" ".join(ins), name, "".join(rows)))
            layer.append(name)
        if column % 2 == 0:
            for v in range(62, 64):
                name = "n%d" % len(covers)
                ins = [layers[-1][v]] + [rng.choice(before) for _ in range(4)]
                covers.append(".names %s %s\n0110- 1\n" % (" ".join(ins), name))
                outputs.append(name)
        else:
            layer, outputs = layer + outputs, []
        layers.append(layer)
    head = ".inputs %s\n.outputs %s\n" % (" ".join(layers[0]), " ".join(layers[-1]))
    return head + "".join(covers) + ".end\n"


def widest_net(rng, nodes):
    """Outputs of 64 fan-ins and 60 rows, in which nearly every input has a literal: some 1,280 cells each."""
    names = " ".join("i%d" % i for i in range(64))
    lines = [".inputs " + names, ".outputs " + " ".join("n%d" % v for v in range(nodes))]
    for v in range(nodes):
        lines.append(".names %s n%d" % (names, v))
        lines += ["".join(rng.choice("01" * 20 + "-") for _ in range(64)) + " 1" for _ in range(60)]
    return "\n".join(lines + [".end", ""])
