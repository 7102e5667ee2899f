#!/usr/bin/env python3
"""A plain, slow consumer of bundles, and changed bundles on which the program must say the same.

    cases/plain_bundle.py compare PROGRAM [ROUNDS [SEED]]

It follows docs/formats.md in the plainest way and shares no code with the program. Each round takes a bundle for a
random design, on cells of one of both kinds, and changes it at random: bytes of it, words of its configuration, tokens
of its trace, the numbers in front, the end that is cut off, with the digest made anew or not. `verify`, `cnf` and
`compact` are asked what they say of it, and what `compact` saves has to have the bytes that docs/formats.md says. It
prints its seed, and how often each answer came.
"""
import hashlib
import os
import random
import struct
import subprocess
import sys
import tempfile

import plain_map
import plain_session
import plain_texts
import plain_verify

GEOMETRY = [3, 4, 8, 4, 3]
# how many changed bundles are made of one that is right
CHANGES = 20


def kind_of(version):
    return 2 if version == 3 else 1


def trace_of(data, may_have_signs):
    """The fault of a trace's text, as `trace FAULT`, or its clauses."""
    try:
        return None, plain_texts.read_trace(data, may_have_signs)
    except plain_texts.Fault as fault:
        return "trace %s" % fault, None


def without_bundle(fault):
    return fault[len("bundle "):] if fault.startswith("bundle ") else fault


def refusal(geometry, kind, net, data):
    """Why the bundle is refused for the net; None where it is accepted."""
    if net.inputs > geometry[3] or len(net.outputs) > geometry[4]:
        return "pads"
    fault, parts = plain_session.bundle_fault(data)
    if fault:
        return fault
    version, shape, config, text = parts
    if (kind_of(version), list(shape)) != (kind, list(geometry)):
        return "other-fabric"
    fault = plain_session.config_fault(geometry, config, kind)
    if fault:
        return fault
    fault, trace = trace_of(text, version != 1)
    if fault:
        return fault
    _, formula = plain_verify.miter(net, *plain_verify.sources(geometry, kind, plain_session.words_of(config)))
    shown = plain_verify.verdict(set(formula), trace)
    return None if shown == "verified" else shown[len("refused "):]


def verified(geometry, kind, net, data):
    """What `verify` is to print, and its status."""
    why = refusal(geometry, kind, net, data)
    return ("refused %s\n" % why, 1) if why else ("verified\n", 0)


def printed_miter(net, name, data):
    """What `cnf` is to print, and its status."""
    fault, parts = plain_session.bundle_fault(data)
    if not fault:
        version, geometry, config, _ = parts
        fault = plain_session.config_fault(geometry, config, kind_of(version))
        if not fault and (net.inputs > geometry[3] or len(net.outputs) > geometry[4]):
            fault = "pads"
    if fault:
        return "bundle %s %s\n" % (name, without_bundle(fault)), 9
    words = plain_session.words_of(config)
    variables, formula = plain_verify.miter(net, *plain_verify.sources(geometry, kind_of(version), words))
    order = lambda clause: sorted(clause, key=lambda lit: (abs(lit), lit))
    lines = ["p cnf %d %d" % (variables, len(formula))] + [" ".join(map(str, [*order(clause), 0])) for clause in formula]
    return "\n".join(lines) + "\n", 0


def compacted(name, data):
    """What `compact` is to print, its status, and what it is to save, if it does."""
    fault, parts = plain_session.bundle_fault(data)
    if not fault:
        version, geometry, config, text = parts
        fault = "version %d" % version if version != 1 else None
        if not fault:
            fault, trace = trace_of(text, False)
    if fault:
        return "bundle %s %s\n" % (name, without_bundle(fault)), 9, None
    index = [clause[0] for clause in trace]
    derived = [k for k, clause in enumerate(trace) if clause[2]]
    order = lambda clause: sorted(clause, key=lambda lit: (abs(lit), lit))
    lines = []
    for k, (number, stated, antecedents) in enumerate(trace):
        middle = ["*"] if antecedents and k != derived[-1] else [*order(stated), 0]
        lines.append(" ".join(map(str, [number, *middle, *(index[a] for a in antecedents), 0])))
    saved = bundle(2, geometry, config, "".join(line + "\n" for line in lines).encode())
    return "written %d\n" % len(saved), 0, saved


def bundle(version, geometry, config, trace):
    whole = b"PCHB" + struct.pack(">6H", version, *geometry) + struct.pack(">I", len(config)) + config
    whole += struct.pack(">I", len(trace)) + trace
    return whole + hashlib.sha256(whole).digest()


def right_parts(text, kind):
    """The parts of a bundle that is accepted for the design of the text."""
    config = plain_map.place(plain_map.Mapping(plain_map.Design(text)), GEOMETRY, kind)
    net = plain_session.Net(text)
    _, formula = plain_verify.miter(net, *plain_verify.sources(GEOMETRY, kind, plain_session.words_of(config)))
    return net, config, plain_verify.text_of(plain_session.refute(formula)).encode()


def changed(kind, config, trace):
    """A bundle with a few changes of its parts, and then of its bytes, mostly with a digest that is right."""
    version, geometry = 3 if kind == 2 else random.choice([1, 1, 2]), list(GEOMETRY)
    turn = random.randrange(10)
    if turn < 4:
        trace = plain_texts.changed(trace, "trace")
    elif turn < 6:
        words = plain_session.words_of(config)
        words[random.randrange(len(words))] = random.choice([0, 1, 2, 5, 8, 9, 65535, random.randrange(65536)])
        config = struct.pack(">%dH" % len(words), *words)
    elif turn == 6:
        config = config[:random.randrange(len(config))] if random.randrange(2) else config + b"\0"
    elif turn == 7:
        geometry[random.randrange(5)] = random.choice([0, 1, 2, 3, 4, 64, 65, 256, 257])
    elif turn == 8:
        version = random.choice([0, 1, 2, 3, 4, 65535])
    data = bytearray(bundle(version, geometry, config, trace))
    for _ in range(random.choice([0, 0, 0, 1, 2])):
        data[random.randrange(len(data))] ^= 1 << random.randrange(8)
        if random.randrange(4):
            data[-32:] = hashlib.sha256(data[:-32]).digest()
    if random.randrange(12) == 0:
        del data[random.randrange(len(data)):]
    elif random.randrange(12) == 0:
        data += bytes(random.randrange(256) for _ in range(random.choice([1, 2, 32])))
    return bytes(data)


def answer(program, words, folder):
    done = subprocess.run([program, *words], cwd=folder, stdin=subprocess.DEVNULL, capture_output=True)
    return done.stdout.decode("latin-1") + done.stderr.decode("latin-1"), done.returncode


def put(folder, name, data):
    with open(os.path.join(folder, name), "wb") as file:
        file.write(data)


def difference(program, folder, kind, net, data):
    """What the program says of a bundle otherwise than it has to; empty where nothing. The specification is the file
    `s` of the folder."""
    put(folder, "b", data)
    words = ["verify", "s", "b", *map(str, GEOMETRY), random.choice(["1", "2", "64"])]
    calls = [(["six"] * (kind - 1) + words, verified(GEOMETRY, kind, net, data)), (["cnf", "s", "b"], printed_miter(net, "b", data))]
    line, status, saved = compacted("b", data)
    for words, wanted in [*calls, (["compact", "b", "o"], (line, status))]:
        said = answer(program, words, folder)
        if said != wanted:
            return "%s ended with %r, not with %r" % (" ".join(words), said, wanted)
    path = os.path.join(folder, "o")
    found = open(path, "rb").read() if os.path.exists(path) else None
    if found is not None:
        os.remove(path)
    return "" if found == saved else "compact saved %r, not %r" % (found, saved)


def compare(program, rounds, seed):
    random.seed(seed)
    seen, made = {}, None
    with tempfile.TemporaryDirectory() as folder:
        for turn in range(rounds):
            if turn % CHANGES == 0:
                kind, text = random.choice([1, 2]), plain_session.random_design()
                made = right_parts(text, kind)
                put(folder, "s", text.encode())
            net, config, trace = made
            data = bundle(3 if kind == 2 else 1, GEOMETRY, config, trace) if turn % CHANGES == 0 else changed(kind, config, trace)
            why = refusal(GEOMETRY, kind, net, data) or "accepted"
            word = why.split()[1] if why.split()[0] in ("bundle", "config", "trace") else why.split()[0]
            seen[word] = seen.get(word, 0) + 1
            wrong = difference(program, folder, kind, net, data) if program else ""
            if wrong or (turn % CHANGES == 0 and why != "accepted"):
                print("seed %d: %s, on the bundle %s of\n%s" % (seed, wrong or why, data.hex(), text))
                return 1
    counts = ", ".join("%d %s" % (n, word) for word, n in sorted(seen.items()))
    print("plain_bundle: %d changed bundles with %s, seed %d" % (rounds, counts, seed))
    return 0


def main(words):
    rounds = int(words[2]) if len(words) > 2 else 300
    program = "" if words[1] == "none" else os.path.abspath(words[1])
    return compare(program, rounds, int(words[3]) if len(words) > 3 else random.randrange(10**9))


if __name__ == "__main__":
    sys.exit(main(sys.argv[1:]))
