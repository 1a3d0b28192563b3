"""What the benches share: the program to measure, and the least time of its runs."""
import functools
import os
import subprocess
import sys
import time

HERE = os.path.dirname(os.path.abspath(__file__))


@functools.lru_cache(None)
def program(name="race_cli"):
    """The first word of the command line, else the program of that crate, which is built first where it is not."""
    if len(sys.argv) > 1:
        return sys.argv[1]
    crate = os.path.join(HERE, "../crates", name)
    if name == "race_cli":  # an empty script is refused, with status 3
        built = subprocess.run([os.path.join(HERE, "../race"), "replay"], stdin=subprocess.DEVNULL, stdout=subprocess.DEVNULL).returncode == 3
    else:
        print("building " + name, file=sys.stderr)
        built = subprocess.run(["rt", "run"], cwd=crate, stdin=subprocess.DEVNULL, capture_output=True).returncode == 0
    if not built:
        sys.exit("the program of crates/%s could not be built" % name)
    return os.path.join(crate, "out", name)


def time_of(command, text=b"", status=0, wanted=None):
    """The time of a run of a command on a text, which ends with this status and this output, where one is given."""
    start = time.perf_counter()
    done = subprocess.run(command, input=text, stdout=subprocess.PIPE)
    taken = time.perf_counter() - start
    if done.returncode != status or wanted not in (None, done.stdout):
        sys.exit("status %d: %r" % (done.returncode, done.stdout[:60]))
    return taken


def least_of(command, text=b"", status=0, wanted=None):
    """The least time of five such runs."""
    return min(time_of(command, text, status, wanted) for _ in range(5))


def least_in_turns(commands, turns=9):
    """The least times of commands that take turns, so that what slows the machine for a while slows each of them."""
    return [min(times) for times in zip(*([time_of(command) for command in commands] for _ in range(turns)))]


def least(text, status=0, wanted=None):
    """The same of `race replay` on a script."""
    return least_of([program(), "replay"], text, status, wanted)
