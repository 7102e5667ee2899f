"""One run of a program, with what it cost. It is begun by a small process of its own: the peak of memory of a process
counts what its parent had when it was begun, and the scripts here may hold large inputs."""
import json
import os
import subprocess
import sys

BEGIN = """
import json, os, subprocess, sys, time
start = time.monotonic()
with open("said", "wb") as out:
    child = subprocess.Popen(sys.argv[1:], stdin=subprocess.DEVNULL, stdout=out)
    _, status, used = os.wait4(child.pid, 0)
    child.returncode = 0
code = os.WEXITSTATUS(status) if os.WIFEXITED(status) else -os.WTERMSIG(status)
print(json.dumps([code, time.monotonic() - start, used.ru_utime + used.ru_stime, used.ru_maxrss / 1024]))
"""


def run(program, words, folder):
    """The status, seconds on the clock and of processors, and the peak of memory in MB. What the program writes is the
    file `said` of the folder then."""
    done = subprocess.run([sys.executable, "-S", "-c", BEGIN, program, *words], cwd=folder, stdin=subprocess.DEVNULL, stdout=subprocess.PIPE, check=True)
    return json.loads(done.stdout)
