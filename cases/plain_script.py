#!/usr/bin/env python3
"""A plain reader of scripts: reads the text of a script and prints its value, or its first fault.

usage: plain_script.py FILE
The value is printed as a script again: the numbers in front, then a line `file KIND NAME` for each file, and each
lane with its commands, in which a file stands by its number. The fault is printed as `too-long` or as the number of
the faulty line. It is written from docs/formats.md and shares nothing with the program.
"""
import re
import sys

MOST_BYTES = 1_048_576
MOST_COMMANDS = 65_536
NUMBER = re.compile(rb"0|[1-9][0-9]*")


class Faulty(Exception):
    """This line isn't as stated."""


def number(word, least, greatest):
    """The number that the word spells, from the least one to the greatest one."""
    if len(word) > 20 or not NUMBER.fullmatch(word) or not least <= int(word) <= greatest:
        raise Faulty
    return int(word)


def bits(word):
    """The bits that the word spells, as text; nothing for `-`."""
    if word == b"-":
        return ""
    if not re.fullmatch(rb"[01]{1,64}", word):
        raise Faulty
    return word.decode()


def lines_of(text):
    """The lines of the text; a last line feed opens no further line."""
    lines = text.split(b"\n")
    if lines[-1] == b"":
        lines.pop()
    return lines


def words_of(line):
    """The words of a line. A byte that may not stand in a word makes the line faulty."""
    if line.endswith(b"\r"):
        line = line[:-1]
    words = [word for word in re.split(rb"[ \t]+", line.split(b"#")[0]) if word]
    if any(not 33 <= byte <= 126 for word in words for byte in word):
        raise Faulty
    return words


class Script:
    """What the lines so far have said."""

    IN_FRONT = [("fabric", None), ("slots", 16), ("limit", 65_536), ("workers", 64)]

    def __init__(self):
        self.front = []
        self.files = []
        self.lanes = []
        self.commands = 0

    def line(self, words):
        if len(self.front) < len(self.IN_FRONT):
            self.line_in_front(words)
        elif words[0] == b"lane":
            if len(words) != 1 or len(self.lanes) == 8:
                raise Faulty
            self.lanes.append([])
        else:
            command = self.command(words)
            if not self.lanes or self.commands == MOST_COMMANDS:
                raise Faulty
            self.commands += 1
            self.lanes[-1].append(command)

    def line_in_front(self, words):
        name, most = self.IN_FRONT[len(self.front)]
        if words[0] != name.encode():
            raise Faulty
        limits = [64, 64, 256, 64, 64] if most is None else [most]
        if len(words) != 1 + len(limits):
            raise Faulty
        self.front.append([number(word, 1, limit) for word, limit in zip(words[1:], limits)])

    def slot(self, word):
        return number(word, 0, self.front[1][0] - 1)

    def file(self, kind, name):
        use = (kind, name.decode())
        if use not in self.files:
            self.files.append(use)
        return self.files.index(use)

    def command(self, words):
        name, more = words[0].decode(), words[1:]
        arity = {"agree": 2, "deliver": 2, "evict": 1, "cycle": 3, "sweep": 3}.get(name)
        if arity != len(more) or not self.lanes or self.commands == MOST_COMMANDS:
            raise Faulty
        slot = self.slot(more[0])
        if name == "agree":
            return f"agree {slot} {self.file('spec', more[1])}"
        if name == "deliver":
            return f"deliver {slot} {self.file('bundle', more[1])}"
        if name == "evict":
            return f"evict {slot}"
        if name == "cycle":
            columns, rows = self.front[0][:2]
            return f"cycle {slot} {bits(more[1]) or '-'} {number(more[2], 0, columns * rows - 1)}"
        return f"sweep {slot} {number(more[1], 0, 2**64 - 1)} {number(more[2], 1, 1_048_576)}"

    def whole(self):
        return bool(self.lanes)

    def text(self):
        front = [" ".join([name] + [str(n) for n in said]) for (name, _), said in zip(self.IN_FRONT, self.front)]
        files = [f"file {kind} {name}" for kind, name in self.files]
        lanes = [line for lane in self.lanes for line in ["lane"] + lane]
        return "\n".join(front + files + lanes) + "\n"


def read(text):
    """The text of the value, or that of the fault."""
    if len(text) > MOST_BYTES:
        return "too-long\n"
    script = Script()
    lines = lines_of(text)
    for at, line in enumerate(lines, 1):
        try:
            words = words_of(line)
            if words:
                script.line(words)
        except Faulty:
            return f"{at}\n"
    return script.text() if script.whole() else f"{len(lines) + 1}\n"


if __name__ == "__main__":
    with open(sys.argv[1], "rb") as file:
        sys.stdout.write(read(file.read()))
