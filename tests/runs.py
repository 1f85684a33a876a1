"""How a program of the repository is run, and what its caller sees: exit status, standard output, standard error. One that hangs is killed."""
import array
import fcntl
import os
import subprocess
import termios
import threading
import time

ROOT = os.path.dirname(os.path.dirname(os.path.abspath(__file__)))
PATIENCE = 60  # seconds


def built(name):
    """A program that `rt ci` or tools/build has built."""
    return os.path.join(ROOT, "crates", name, "out", name)


def started(words, **how):
    pipe = subprocess.PIPE
    return subprocess.Popen(words, **{"stdin": pipe, "stdout": pipe, "stderr": pipe, "bufsize": 0, **how})


def ended(run, data=None):
    """What is seen of a run, which is handed these bytes through its pipe."""
    try:
        out, err = run.communicate(data, timeout=PATIENCE)
    except subprocess.TimeoutExpired:
        run.kill()
        out, err = run.communicate()
    return run.returncode, out, err


def piped(words, data):
    """What is seen of a run whose input comes through a pipe."""
    return ended(started(words), data)


def taken(run):
    """Waits until the run has taken what is in its pipe, or has ended."""
    left = array.array("i", [1])
    while left[0] and run.poll() is None:
        time.sleep(0.001)
        fcntl.ioctl(run.stdin, termios.FIONREAD, left)


def in_pieces(words, pieces):
    """The same in pieces, of which each goes when the one before has been taken: so no read gives more than a piece."""
    run = started(words)
    late = threading.Timer(PATIENCE, run.kill)
    late.start()
    try:
        for piece in pieces:
            run.stdin.write(piece)
            taken(run)
    except BrokenPipeError:
        pass  # the program has read all that it reads, or was killed
    seen = ended(run)
    late.cancel()
    return seen
