#!/usr/bin/env python3
"""A plain, slow run of sessions, lane after lane, and random ones on which the program must say the same.

    cases/plain_session.py run SCRIPT                       the transcript of a script whose files lie beside it
    cases/plain_session.py compare PROGRAM [ROUNDS [SEED]]  random scripts, on which PROGRAM must print the same

It follows docs/formats.md in the plainest way and shares no code with the program: the journal is a list, the
agreed specification and the running configuration of a slot are looked for in it anew at each command, and a
sweep is a loop over its values. A session of several lanes that the program runs in another order has to be a
transcript for plain_judge.py. `compare` makes designs, places them, writes refutations by branching on
variables, spoils some of them, and prints its seed.
"""
import functools
import hashlib
import os
import random
import struct
import subprocess
import sys
import tempfile

import plain_map
import plain_script
import plain_verify


class Net:
    """A specification, with its nodes as the judge of bundles takes them."""

    def __init__(self, text):
        self.design = plain_map.Design(text)
        self.inputs, self.outputs = self.design.inputs, self.design.outputs
        self.nodes = [{"fan_ins": fan_ins, "on": on, "rows": rows} for fan_ins, on, rows in self.design.nodes]
        self.text = (self.inputs, self.outputs, self.nodes)


def words_of(data):
    return list(struct.unpack(">%dH" % (len(data) // 2), data))


def bundle_fault(data):
    """The first fault of a bundle's bytes, or its version, geometry, configuration and trace."""
    if data[:4] != b"PCHB":
        return "bundle magic", None
    if len(data) < 6:
        return "bundle lengths", None
    version = struct.unpack(">H", data[4:6])[0]
    if version not in (1, 2, 3):
        return "bundle version %d" % version, None
    if len(data) < 16:
        return "bundle lengths", None
    geometry = words_of(data[6:16])
    if any(not 1 <= n <= most for n, most in zip(geometry, [64, 64, 256, 64, 64])):
        return "bundle geometry", None
    parts, at = [], 16
    for _ in range(2):
        if len(data) < at + 4:
            return "bundle lengths", None
        length = struct.unpack(">I", data[at:at + 4])[0]
        parts.append(data[at + 4:at + 4 + length])
        at += 4 + length
    if len(data) != at + 32:
        return "bundle lengths", None
    if hashlib.sha256(data[:at]).digest() != data[at:]:
        return "bundle digest", None
    return None, (version, geometry, *parts)


def config_fault(geometry, config, kind=1):
    columns, rows, tracks, input_pads, output_pads = geometry
    pins, table_words = (4, 1) if kind == 1 else (6, 4)
    want = 2 * (tracks + columns * ((pins + table_words) * rows + tracks) + output_pads)
    if len(config) != want:
        return "config length %d %d" % (want, len(config))
    limits = [input_pads] * tracks
    limits += (([tracks] * pins + [65535] * table_words) * rows + [rows + 1] * tracks) * columns
    limits += [tracks] * output_pads
    for place, (word, limit) in enumerate(zip(words_of(config), limits)):
        if word > limit:
            return "config selector %d" % (2 * place)
    return None


def refusal(geometry, net, data):
    """Why the bundle is refused for the net, and its configuration where it isn't."""
    if net.inputs > geometry[3] or len(net.outputs) > geometry[4]:
        return "pads", None
    fault, parts = bundle_fault(data)
    if fault:
        return fault, None
    version, shape, config, trace = parts
    if shape != geometry or version == 3:
        return "other-fabric", None
    fault = config_fault(geometry, config)
    if fault:
        return fault, None
    fault, clauses = plain_verify.judged(plain_verify.read_trace(trace.decode()))
    if fault:
        return fault, None
    cells, outputs = plain_verify.sources(geometry, 1, words_of(config))
    _, formula = plain_verify.miter(net, cells, outputs)
    shown = plain_verify.verdict(set(formula), clauses)
    if shown != "verified":
        return shown[len("refused "):], None
    return None, plain_map.Fabric(geometry, 1, words_of(config))


class Session:
    """The journal so far. An entry is its kind, lane, turn and slot, and what it agrees or installs."""

    def __init__(self, script, files):
        self.geometry, ((self.limit,), self.lanes) = script.front[0], (script.front[2], script.lanes)
        self.files, self.journal = files, []

    def spec(self, slot):
        agreed = [e for e in self.journal if e[0] == "agreed" and e[3] == slot]
        return agreed[-1][4] if agreed else None

    def running(self, slot):
        entries = [e for e in self.journal if e[3] == slot]
        return entries[-1][4] if entries and entries[-1][0] == "installed" else None

    def change(self, kind, lane, turn, slot, what=None):
        if len(self.journal) == self.limit:
            return "full @%d" % self.limit
        self.journal.append((kind, lane, turn, slot, what))
        return "%s @%d" % (kind, len(self.journal))

    def deliver(self, lane, turn, slot, data):
        net = self.spec(slot)
        if net is None:
            return "unagreed @%d" % len(self.journal)
        why, config = refusal(self.geometry, net, data)
        if why:
            return "refused %s @%d" % (why, len(self.journal))
        return self.change("installed", lane, turn, slot, config)

    def cycle(self, slot, bits, probe):
        net, config, at = self.spec(slot), self.running(slot), len(self.journal)
        if config is None:
            return "vacant @%d" % at
        if len(bits) != net.inputs:
            return "width %d @%d" % (net.inputs, at)
        pads, cells = fabric_values(config, tuple(bits))
        return "out %s %d @%d" % ("".join(map(str, pads[:len(net.outputs)])) or "-", cells[probe], at)

    def sweep(self, slot, first, count):
        net, config, at = self.spec(slot), self.running(slot), len(self.journal)
        if config is None:
            return "vacant @%d" % at
        counts = [0] * len(net.outputs)
        for j in range(count):
            value = (first + j) % 2**64
            pads = config.values([value >> i & 1 for i in range(net.inputs)])
            counts = [n + pads[o] for o, n in enumerate(counts)]
        return " ".join(["ones", *map(str, counts), "@%d" % at])

    def answer(self, lane, turn, command):
        name, slot, *more = command.split()
        slot = int(slot)
        if name == "agree":
            return self.change("agreed", lane, turn, slot, self.files[int(more[0])])
        if name == "deliver":
            return self.deliver(lane, turn, slot, self.files[int(more[0])])
        if name == "evict":
            return self.change("evicted", lane, turn, slot)
        if name == "cycle":
            return self.cycle(slot, [int(bit) for bit in more[0].strip("-")], int(more[1]))
        return self.sweep(slot, int(more[0]), int(more[1]))

    def transcript(self):
        return self.text([[self.answer(lane, turn, command) for turn, command in enumerate(commands)]
                          for lane, commands in enumerate(self.lanes)])

    def text(self, replies):
        lines = ["journal %d" % len(self.journal)]
        lines += ["%d %s %d %d %d" % (number, *entry[:4]) for number, entry in enumerate(self.journal, 1)]
        for lane, said in enumerate(replies):
            lines += ["lane %d" % lane] + ["%d %s" % (turn, reply) for turn, reply in enumerate(said)]
        return "\n".join(lines) + "\n"


@functools.lru_cache(maxsize=1_000)
def fabric_values(config, bits):
    """The bits of the output pads and those of the cells by their numbers; what was asked before is kept."""
    rows = config.geometry[1]
    pad = lambda p: bits[p] if p < len(bits) else 0
    channel, cells = [pad(word - 1) if word else 0 for word in config.channels[0]], []
    for column, taken in enumerate(config.channels[1:]):
        outs = []
        for row in range(rows):
            taps, table = config.cells[column, row]
            outs.append(table >> sum((channel[word - 1] if word else 0) << j for j, word in enumerate(taps)) & 1)
        channel = [0 if word == 0 else channel[t] if word == 1 else outs[word - 2] for t, word in enumerate(taken)]
        cells += outs
    return [channel[word - 1] if word else 0 for word in config.pads], cells


def script_of(text):
    """The value of a script, or None where it has a fault."""
    if not plain_script.read(text).startswith("fabric"):
        return None
    script = plain_script.Script()
    for line in plain_script.lines_of(text):
        words = plain_script.words_of(line)
        if words:
            script.line(words)
    return script


def run(folder, name):
    """What `run` is to print, and its status, where all files are there."""
    read = lambda name: open(os.path.join(folder, name), "rb").read()
    script = script_of(read(name))
    if script is None:
        return "script %s %s" % (name, plain_script.read(read(name))), 9
    files = [Net(read(name).decode()) if kind == "spec" else read(name) for kind, name in script.files]
    return Session(script, files).transcript(), 0


# ---- random sessions

def refute(formula):
    """A trace that refutes the formula, by branching on the variables of its shortest clauses."""
    trace, places = [], {}

    def put(clause, antecedents):
        if clause not in places:
            places[clause] = len(trace) + 1
            trace.append([len(trace) + 1, sorted(clause), [places[c] for c in antecedents]])
        return clause

    def falsified(false):
        open_literals = lambda clause: sum(-lit not in false for lit in [-lit for lit in clause])
        left = [c for c in formula if not any(-lit in false for lit in c)]
        clause = min(left, key=open_literals)
        if open_literals(clause) == 0:
            return put(clause, [])
        variable = abs(next(lit for lit in sorted(clause) if lit not in false))
        with_it = falsified(false | {variable})
        if variable not in with_it:
            return with_it
        without = falsified(false | {-variable})
        if -variable not in without:
            return without
        return put((with_it - {variable}) | (without - {-variable}), [with_it, without])

    falsified(frozenset())
    return trace


def bundle(geometry, config, trace):
    whole = b"PCHB" + struct.pack(">6H", 1, *geometry)
    whole += struct.pack(">I", len(config)) + config + struct.pack(">I", len(trace)) + trace
    return whole + hashlib.sha256(whole).digest()


def random_design():
    """The text of a design with few inputs, nodes and outputs."""
    inputs = ["i%d" % k for k in range(random.randrange(4))]
    names, lines = list(inputs), []
    for k in range(random.randrange(1, 4)):
        fan_ins = random.sample(names, min(len(names), random.randrange(4)))
        rows = sorted({"".join(random.choice("01-") for _ in fan_ins) for _ in range(random.randrange(3))})
        value = random.choice("01")
        lines += [" ".join([".names", *fan_ins, "n%d" % k])]
        lines += ["%s %s" % (row, value) if row else value for row in rows]
        names.append("n%d" % k)
    outputs = random.sample(names, random.randrange(1, min(3, len(names)) + 1))
    return "\n".join([" ".join([".inputs", *inputs]), " ".join([".outputs", *outputs]), *lines, ".end"]) + "\n"


def random_bundle(geometry, text):
    """A bundle for the design of the text, sometimes spoilt."""
    net, mapping = Net(text), plain_map.Mapping(plain_map.Design(text))
    config = plain_map.place(mapping, geometry, 1)
    _, formula = plain_verify.miter(net, *plain_verify.sources(geometry, 1, words_of(config)))
    trace = refute(formula)
    for _ in range(random.choice([0, 0, 0, 1, 2])):
        if trace:
            trace = plain_verify.change(trace, 8)
    trace = [[index, stated if stated is not None else [], antecedents] for index, stated, antecedents in trace]
    data = bytearray(bundle(geometry, config, plain_verify.text_of(trace).encode()))
    kind = random.randrange(12)
    if kind == 0:
        del data[random.randrange(len(data)):]
    elif kind == 1:
        data[random.randrange(len(data))] ^= 1
    elif kind == 2:
        data = bundle(geometry[:2] + [geometry[2] + 1] + geometry[3:], config, plain_verify.text_of(trace).encode())
    return bytes(data)


def random_command(geometry, slots, specs, bundles, widths):
    slot, kind = random.randrange(slots), random.randrange(10)
    if kind < 2:
        return "agree %d %s" % (slot, random.choice(specs))
    if kind < 5:
        return "deliver %d %s" % (slot, random.choice(bundles))
    if kind == 5:
        return "evict %d" % slot
    if kind < 9:
        bits = "".join(random.choice("01") for _ in range(random.choice(widths))) or "-"
        return "cycle %d %s %d" % (slot, bits, random.randrange(geometry[0] * geometry[1]))
    first = random.choice([0, random.randrange(2**64), 2**64 - random.randrange(1, 70)])
    return "sweep %d %d %d" % (slot, first, random.choice([1, 2, 63, 64, 65, random.randrange(1, 200)]))


def spoil(lines):
    """Leaves a line of a script out, doubles one, or changes a number of one."""
    at, kind = random.randrange(len(lines)), random.randrange(3)
    words = lines[at].split()
    numbers = [place for place, word in enumerate(words) if word.isdigit()]
    if kind == 0:
        del lines[at]
    elif kind == 1 or not numbers:
        lines.insert(at, lines[at])
    else:
        words[random.choice(numbers)] = random.choice(["0", "1", "3", "01", "16", "17", "64", "65", "257"])
        lines[at] = " ".join(words)


def random_session(folder, lanes):
    """Writes the files of a random session with so many lanes and its script, which has the name `s`."""
    geometry, slots = [3, 4, 8, 4, 3], random.randrange(1, 3)
    specs, bundles = ["a.blif", "b.blif"], ["a.pch", "b.pch", "c.pch"]
    texts = [random_design() for _ in specs]
    files = dict(zip(specs, [text.encode() for text in texts]))
    for name, text in zip(bundles, texts + [random.choice(texts)]):
        files[name] = random_bundle(geometry, text)
    lines = [" ".join(["fabric", *map(str, geometry)]), "slots %d" % slots, "limit %d" % random.choice([1, 2, 5, 40]),
             "workers %d" % random.choice([1, 2, 3, 64])]
    widths = [*(Net(text).inputs for text in texts), random.randrange(5)]
    for _ in range(lanes):
        commands = [random_command(geometry, slots, specs, bundles, widths) for _ in range(random.randrange(12))]
        if random.randrange(3):
            name = random.choice("ab")
            commands[:0] = ["agree 0 %s.blif" % name, "deliver 0 %s.pch" % name]
        lines += ["lane"] + commands
    if random.randrange(8) == 0:
        spoil(lines)
    files["s"] = ("\n".join(lines) + "\n").encode()
    for name, content in files.items():
        with open(os.path.join(folder, name), "wb") as file:
            file.write(content)
    return files["s"].decode()


def is_other_order(folder, script, done, status):
    """Whether this is a transcript of several lanes that didn't run one after another."""
    import plain_judge
    if script.count("\nlane") < 2 or done.stderr or (done.returncode, status) != (0, 0):
        return False
    try:
        plain_judge.Judge(folder, script_of(script.encode())).judge(done.stdout)
    except plain_judge.Wrong:
        return False
    return True


def compare(program, rounds, seed):
    random.seed(seed)
    seen = {}
    for _ in range(rounds):
        with tempfile.TemporaryDirectory() as folder:
            script = random_session(folder, random.randrange(1, 4))
            want, status = run(folder, "s")
            if status == 9:
                seen["faulty"] = seen.get("faulty", 0) + 1
            for line in want.splitlines():
                if not line.startswith(("journal", "lane")) and "@" in line:
                    seen[line.split()[1]] = seen.get(line.split()[1], 0) + 1
            done = program and subprocess.run([program, "run", "s"], cwd=folder, capture_output=True, text=True)
            if done and (done.stdout, done.returncode, done.stderr) != (want, status, ""):
                if is_other_order(folder, script, done, status):
                    seen["in another order"] = seen.get("in another order", 0) + 1
                    continue
                print("seed %d: printed\n%s, not\n%s, on the script\n%s" % (seed, done.stdout, want, script))
                return 1
    counts = ", ".join("%d %s" % (n, word) for word, n in sorted(seen.items()))
    print("plain_session: %d random scripts with %s, seed %d" % (rounds, counts, seed))
    return 0


def main(words):
    if words[0] == "run":
        text, status = run(os.path.dirname(words[1]) or ".", os.path.basename(words[1]))
        sys.stdout.write(text)
        return status
    rounds = int(words[2]) if len(words) > 2 else 100
    program = "" if words[1] == "none" else os.path.abspath(words[1])
    return compare(program, rounds, int(words[3]) if len(words) > 3 else random.randrange(10**9))


if __name__ == "__main__":
    sys.exit(main(sys.argv[1:]))
