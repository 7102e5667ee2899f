#!/usr/bin/env python3
"""A plain, slow judge of transcripts: whether a text is a transcript of a script and its files.

    cases/plain_judge.py judge SCRIPT TRANSCRIPT            of a script whose files lie beside it
    cases/plain_judge.py compare PROGRAM [ROUNDS [SEED]]    random scripts of two to eight lanes, each run several times

It follows docs/formats.md in the plainest way and shares no code with the program. It asks nothing of the order in
which the lanes ran: the lines of the journal and the accepted commands have to be the same ones, each point of a lane
has to be at or behind the one before it, and each reply has to be right after the entries at its points. With `none`
as the program the transcripts are made here, by lanes that take turns at random, and each is judged once more with a
fault put in, which must be found.
"""
import os
import random
import re
import subprocess
import sys
import tempfile

import plain_map
import plain_session

ENTRY = re.compile(r"(agreed|installed|evicted) (\d+) (\d+) (\d+)")
REPLY = re.compile(r"(.+?)((?: @\d+)+)")
KINDS = {"agree": "agreed", "deliver": "installed", "evict": "evicted"}
RUNS = 5


class Wrong(Exception):
    """What isn't as it has to be."""


def expect(right, what):
    if not right:
        raise Wrong(what)


def identity(text):
    """All by which two specifications are the same or not."""
    lines = [words for words in plain_map.joined_lines(text)]
    names = [[word for words in lines if words[0] == kind for word in words[1:]] for kind in (".inputs", ".outputs")]
    design = plain_map.Design(text)
    return names, design.outputs, design.nodes


class Transcript:
    """The lines of a text: entries as kind, lane, turn and slot, and for each lane its replies, each as what is said
    and the points at which it is."""

    def __init__(self, text):
        expect(text.endswith("\n"), "the last line doesn't end")
        self.lines = text.split("\n")[:-1]
        self.at = 0
        self.journal, self.lanes = [], []
        for number in range(1, self.count("journal") + 1):
            kind, *numbers = self.match(ENTRY, number)
            self.journal.append((kind, *map(int, numbers)))
        while self.at < len(self.lines):
            expect(self.count("lane") == len(self.lanes), "line %d isn't of the next lane" % self.at)
            self.lanes.append([])
            while self.at < len(self.lines) and not self.lines[self.at].startswith("lane "):
                said, points = self.match(REPLY, len(self.lanes[-1]))
                self.lanes[-1].append((said, [int(point[1:]) for point in points.split()]))

    def take(self):
        expect(self.at < len(self.lines), "the text ends too early")
        self.at += 1
        return self.lines[self.at - 1]

    def count(self, word):
        """The number behind the word on the next line."""
        said, _, number = self.take().partition(" ")
        expect(said == word and number.isdigit(), "line %d isn't `%s` and a number" % (self.at, word))
        return int(number)

    def match(self, pattern, number):
        """The groups of the pattern on the next line, which begins with this number."""
        said, _, rest = self.take().partition(" ")
        found = pattern.fullmatch(rest)
        expect(said == str(number) and found, "line %d isn't as it has to be" % self.at)
        return found.groups()


class Judge:
    """A script and its files, with what was found of them: refusals by the net and the bundle."""

    def __init__(self, folder, script):
        self.script, self.limit = script, script.front[2][0]
        self.files, self.same = [], {}
        for kind, name in script.files:
            with open(os.path.join(folder, name), "rb") as file:
                data = file.read()
            self.files.append(plain_session.Net(data.decode()) if kind == "spec" else data)
            if kind == "spec":
                self.same[self.files[-1]] = identity(data.decode())
        self.found = {}

    def judged(self, net, file):
        """Why the bundle is refused for the net, and its configuration where it isn't."""
        if (net, file) not in self.found:
            self.found[net, file] = plain_session.refusal(self.script.front[0], net, self.files[file])
        return self.found[net, file]

    def after(self, entries):
        """A session that has had these entries."""
        session = plain_session.Session(self.script, self.files)
        session.journal = entries
        return session

    def entry(self, number, line, t):
        """The entry that a line means: its command is there and was answered with this very entry."""
        kind, lane, turn, slot = line
        expect(lane < len(t.lanes) and turn < len(t.lanes[lane]), "entry %d is of no command" % number)
        name, said_slot, *more = self.script.lanes[lane][turn].split()
        expect(KINDS.get(name) == kind and int(said_slot) == slot, "entry %d isn't what its command says" % number)
        expect(t.lanes[lane][turn] == (kind, [number]), "entry %d isn't what its command was answered" % number)
        what = self.files[int(more[0])] if kind == "agreed" else None
        if kind == "installed":
            net = self.after(self.entries).spec(slot)
            expect(net is not None, "entry %d is installed where nothing is agreed" % number)
            why, what = self.judged(net, int(more[0]))
            expect(why is None, "entry %d has a bundle that is refused: %s" % (number, why))
        return (*line, what)

    def points(self, said, points):
        """The points before and after a reply."""
        if said == "stale":
            expect(len(points) == 2, "stale has not two points")
            return points
        expect(len(points) == 1, "%s has not one point" % said)
        return [points[0] - (said in KINDS.values()), points[0]]

    def reply(self, lane, turn, said, before, after):
        """Whether this reply is right after the entries at its points."""
        name, slot, *more = self.script.lanes[lane][turn].split()
        if said == "full":
            expect(name in KINDS and after == self.limit, "full below the limit")
        if name in ("cycle", "sweep"):
            right = self.after(self.entries[:after]).answer(lane, turn, self.script.lanes[lane][turn])
            expect("%s @%d" % (said, after) == right, "not " + right)
        elif said in KINDS.values():
            expect(said == KINDS[name] and 1 <= after <= len(self.entries), "an entry that isn't there")
            expect(self.entries[after - 1][1:3] == (lane, turn), "entry %d is another one's" % after)
        elif name == "deliver":
            self.delivery(int(slot), int(more[0]), said, before, after)
        else:
            expect(said == "full", "no reply to this command")

    def delivery(self, slot, file, said, before, after):
        net = self.after(self.entries[:before]).spec(slot)
        if said == "unagreed" or net is None:
            expect(said == "unagreed" and net is None, "something is agreed or not")
            return
        why, _ = self.judged(net, file)
        if said == "stale":
            now = self.after(self.entries[:after]).spec(slot)
            expect(why is None and self.same[net] != self.same[now], "not stale")
        else:
            expect(said == ("refused %s" % why if why else "full"), "not " + (why or "accepted"))

    def judge(self, text):
        """Raises Wrong where the text is no transcript."""
        t = Transcript(text)
        expect([*map(len, t.lanes)] == [*map(len, self.script.lanes)], "not a reply for each command")
        expect(len(t.journal) <= self.limit, "more entries than the limit")
        self.entries = []
        for number, line in enumerate(t.journal, 1):
            self.entries.append(self.entry(number, line, t))
        for lane, replies in enumerate(t.lanes):
            last = 0
            for turn, (said, points) in enumerate(replies):
                before, after = self.points(said, points)
                where = "lane %d, turn %d: " % (lane, turn)
                expect(last <= before <= after <= len(self.entries), where + "its points fall, or pass the end")
                try:
                    self.reply(lane, turn, said, before, after)
                except Wrong as wrong:
                    raise Wrong(where + str(wrong)) from None
                last = after
        return t


# ---- transcripts of lanes that take turns at random

def turns_of(judge, session, lane, replies):
    """Answers a command of the lane at each step; a delivery takes two, its check and its installation."""
    for turn, command in enumerate(judge.script.lanes[lane]):
        name, slot, *more = command.split()
        checked, net = len(session.journal), session.spec(int(slot))
        if name == "deliver" and net and judge.judged(net, int(more[0]))[0] is None:
            yield
            now = session.spec(int(slot))
            if judge.same[now] != judge.same[net]:
                replies.append("stale @%d @%d" % (checked, len(session.journal)))
                yield
                continue
        replies.append(session.answer(lane, turn, command))
        yield


def interleaved(judge):
    """The text of a transcript of lanes that take turns at random."""
    session = judge.after([])
    replies = [[] for _ in judge.script.lanes]
    running = [turns_of(judge, session, lane, said) for lane, said in enumerate(replies)]
    while running:
        lane = random.choice(running)
        if next(lane, "ended") == "ended":
            running.remove(lane)
    return session.text(replies)


def spoilt(text):
    """The text with a fault: a line left out, an entry or an output changed."""
    lines = text.splitlines()
    entries = [at for at, line in enumerate(lines) if ENTRY.fullmatch(line.partition(" ")[2])]
    outputs = [at for at, line in enumerate(lines) if re.match(r"\d+ out [01]", line)]
    kind = random.choice(["line"] + ["entry"] * bool(entries) + ["output"] * bool(outputs))
    at = random.choice({"line": range(len(lines)), "entry": entries, "output": outputs}[kind])
    if kind == "line":
        del lines[at]
    else:
        words = lines[at].split()
        place = 2 if kind == "output" else random.randrange(2, 5)
        words[place] = ("10"[int(words[2][0])] + words[2][1:]) if kind == "output" else str(int(words[place]) + 1)
        lines[at] = " ".join(words)
    return "".join(line + "\n" for line in lines)


def texts_of(program, judge, folder):
    """What is to be judged: what several runs of the program print, or what is made here."""
    if not program:
        text = interleaved(judge)
        try:
            judge.judge(spoilt(text))
            raise Wrong("a fault isn't found in " + text)
        except Wrong as wrong:
            if str(wrong).startswith("a fault"):
                raise
        return [text]
    runs = [subprocess.run([program, "run", "s"], cwd=folder, capture_output=True, text=True) for _ in range(RUNS)]
    for done in runs:
        expect(done.returncode == 0 and not done.stderr, "status %d, %s" % (done.returncode, done.stderr))
    return [done.stdout for done in runs]


def compare(program, rounds, seed):
    random.seed(seed)
    seen, mixed, judged = {}, 0, 0
    for _ in range(rounds):
        with tempfile.TemporaryDirectory() as folder:
            text = plain_session.random_session(folder, random.randrange(2, 9))
            script = plain_session.script_of(text.encode())
            if script is None:
                seen["faulty"] = seen.get("faulty", 0) + 1
                continue
            judge, said = Judge(folder, script), ""
            try:
                for said in texts_of(program, judge, folder):
                    t = judge.judge(said)
                    judged += 1
                    made = [entry[1] for entry in t.journal]
                    mixed += made != sorted(made)
                    for word, _ in (reply for lane in t.lanes for reply in lane):
                        seen[word.split()[0]] = seen.get(word.split()[0], 0) + 1
            except Wrong as wrong:
                print("seed %d: %s, in\n%s\nof the script\n%s" % (seed, wrong, said, text))
                return 1
    counts = ", ".join("%d %s" % (n, word) for word, n in sorted(seen.items()))
    print("plain_judge: %d transcripts of %d random scripts with %s; in %d the journal's lanes aren't in order; seed %d"
          % (judged, rounds, counts, mixed, seed))
    return 0


def main(words):
    if words[0] == "judge":
        folder = os.path.dirname(words[1]) or "."
        with open(words[1], "rb") as file, open(words[2], encoding="ascii") as said:
            Judge(folder, plain_session.script_of(file.read())).judge(said.read())
        print("a transcript")
        return 0
    rounds = int(words[2]) if len(words) > 2 else 100
    program = "" if words[1] == "none" else os.path.abspath(words[1])
    return compare(program, rounds, int(words[3]) if len(words) > 3 else random.randrange(10**9))


if __name__ == "__main__":
    sys.exit(main(sys.argv[1:]))
