"""Runs of the program in which the system is wanting: refused memory, refused threads, failing calls.

`refuse.c` is preloaded before the program, where a C compiler is installed and what it makes can be preloaded. Its
counts are of this machine alone: the system's own libraries ask for memory and open files too, so how many requests
and calls a run makes isn't judged, and a run that ends as it does without the fault is always right.
"""
import os
import shutil
import subprocess
import tempfile

import plain_judge
import plain_session

HERE = os.path.dirname(os.path.abspath(__file__))
# no call takes longer than a few seconds where nothing else runs; one that takes so long is ended
SECONDS = 600


def put_files(folder, files):
    """Leaves these files in the folder and no others."""
    for name in os.listdir(folder):
        os.remove(os.path.join(folder, name))
    for name, data in files.items():
        with open(os.path.join(folder, name), "wb") as out:
            out.write(data)


def files_in(folder):
    found = {}
    for name in os.listdir(folder):
        with open(os.path.join(folder, name), "rb") as file:
            found[name] = file.read()
    return found


def is_transcript(script, files, said):
    """Whether the plain judge calls this a transcript of the script and the files."""
    with tempfile.TemporaryDirectory() as folder:
        put_files(folder, files)
        judge = plain_judge.Judge(folder, plain_session.script_of(files[script]))
    try:
        judge.judge(said.decode("ascii"))
    except (plain_judge.Wrong, UnicodeDecodeError):
        return False
    return True


class Run:
    """A worked run: words, the files that lie there, the files that it may save, and how it ends without a fault: its
    status, and what it prints, or none where that is any transcript of the script that the words name last."""

    def __init__(self, name, words, files, saved, status, printed):
        self.name, self.words, self.files, self.saved = name, words, files, saved
        self.status, self.printed = status, printed

    def is_right(self, status, said):
        if self.printed is None:
            return status == self.status and is_transcript(self.words[-1], self.files, said)
        return status == self.status and self.printed(said)

    def ends_as_ever(self, ended, right):
        """Whether a run ended as the one without a fault; the transcripts of lanes may be others each time."""
        if ended == right:
            return True
        status, said, errors, after = ended
        return self.printed is None and not errors and after == right[3] and self.is_right(status, said)

    def is_front(self, said, right):
        """Whether this is a front of a text that was due; of a transcript that may be another one each time, its last
        line may end early."""
        return right[1].startswith(said) or (self.printed is None and said.startswith(b"journal "))

    def is_fair(self, kind, ended, right):
        """Whether a run may end so: as without the fault; where memory was refused, with status 5 and nothing said but
        a front of the text; where a call failed, with status 3 and the name of the file, or with status 4 and a front
        of the text. No file but those that it saves has changed, and one of these only where the save was reached."""
        if self.ends_as_ever(ended, right):
            return True
        status, said, errors, after = ended
        others = {name: data for name, data in after.items() if name not in self.saved}
        if errors or others != {name: data for name, data in self.files.items() if name not in self.saved}:
            return False
        if kind == "REFUSE":
            return status == 5 and self.is_front(said, right)
        if status == 3:
            named = [name for name in [*self.files, *self.saved] if said == b"store %s failed\n" % name.encode()]
            return bool(named) and (named[0] in self.saved or after == self.files)
        return status == 4 and self.is_front(said, right) and (after == right[3] or self.printed is None)


class System:
    """The program with `refuse.c` before it, in a folder of its own. `why` says what is wanting, if something is."""

    def __init__(self, program, folder):
        self.program, self.folder = program, os.path.join(folder, "runs")
        self.library, self.counts = os.path.join(folder, "refuse.so"), os.path.join(folder, "counts")
        os.mkdir(self.folder)
        self.why = self.build()

    def build(self):
        compiler = shutil.which(os.environ.get("CC", "cc"))
        if not compiler:
            return "no C compiler is installed"
        words = [compiler, "-O1", "-shared", "-fPIC", "-o", self.library, os.path.join(HERE, "refuse.c")]
        for more in ([], ["-ldl"]):
            made = subprocess.run(words + more, stdin=subprocess.DEVNULL, capture_output=True, text=True)
            if made.returncode == 0 and self.is_preloaded():
                return ""
        return "refuse.c can't be built and preloaded here: " + made.stderr[-200:].strip()

    def is_preloaded(self):
        """Whether a run of the program counts its requests, and says what it says without the library."""
        try:
            (status, said, errors), counts = self.call([], {})
        except (OSError, ValueError):
            return False
        return (status, said, errors) == (2, b"words\n", b"") and counts[0] > 0

    def call(self, words, fault, folder=None):
        """Status, output and standard error of a run with this fault, and how many requests for memory, threads and
        calls of the system it made."""
        if os.path.exists(self.counts):
            os.remove(self.counts)
        try:
            done = subprocess.run([self.program, *words], cwd=folder or self.folder, stdin=subprocess.DEVNULL, capture_output=True,
                                  timeout=SECONDS, env={"LD_PRELOAD": self.library, "COUNT": self.counts, **fault})
        except subprocess.TimeoutExpired:
            return ("none in %d s" % SECONDS, b"", b""), [0, 0, 0]
        counts = [0, 0, 0]
        if os.path.exists(self.counts):
            with open(self.counts, encoding="ascii") as file:
                counts = [*map(int, file.read().split())]
        return (done.returncode, done.stdout, done.stderr), counts

    def ends(self, run, fault):
        """How a run ends with this fault: status, output, standard error and files; and its counts."""
        put_files(self.folder, run.files)
        ended, counts = self.call(run.words, fault)
        return (*ended, files_in(self.folder)), counts

    def every_fault(self, run, step=1):
        """Refuses each request for memory in turn, and lets each call fail in turn that opens, reads or writes a file,
        or of many only every so many. Answers how many of both were tried, and what ended otherwise than it may."""
        right, (asked, _, outside) = self.ends(run, {})
        if not run.is_right(right[0], right[1]) or right[2]:
            return 0, 0, ["without a fault: status %s, %r, %r" % (right[0], right[1][:200], right[2][:200])]
        tried, wrong = {}, []
        for kind, calls in [("REFUSE", asked), ("FAIL", outside)]:
            tried[kind] = range(1, calls + 1, max(1, min(step, calls // 10)))
            for number in tried[kind]:
                ended, _ = self.ends(run, {kind: str(number)})
                if not run.is_fair(kind, ended, right):
                    wrong.append("%s %d of %d: status %s, %r, %r" % (kind, number, calls, ended[0], ended[1][:200], ended[2][:200]))
        return len(tried["REFUSE"]), len(tried["FAIL"]), wrong
