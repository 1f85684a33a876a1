"""Requests to the driver program: docs/DRIVER.md has the format. tools/build driver builds it."""
import subprocess

import runs

PROGRAM = runs.built("driver")

BYTES = 0  # a field of bytes; any other kind of field is a number of so many bytes

# each call's number, and the kinds of its fields
CALLS = {
    "sha256": (1, [BYTES]),
    "first_difference": (2, [BYTES, BYTES]),
    "history_paths": (3, [2, 4]),
    "check_lookup": (4, [BYTES, BYTES, BYTES]),
    "check_history": (5, [BYTES, BYTES, BYTES]),
    "check_audit": (6, [BYTES, BYTES, BYTES]),
    "program": (7, [BYTES]),
    "tree_root": (8, [BYTES]),
    "tree_path": (9, [BYTES, BYTES, 2]),
    "start": (10, [BYTES]),
    "publish": (11, [BYTES, BYTES, 4, 4, BYTES]),
    "write_lookup": (12, [BYTES, BYTES, 4, 4, BYTES, 4, 4]),
    "write_history": (13, [BYTES, BYTES, 4, 4, BYTES, 4, 4]),
    "write_audit": (14, [BYTES, BYTES, 4, 4, 4, 4]),
}


def be(n, x):
    return x.to_bytes(n, "big")


def request(number, fields):
    """A request of the call with that number."""
    body = be(1, number) + b"".join(be(4, len(f)) + f for f in fields)
    return be(4, len(body)) + body


def call_request(call, values):
    """A request of the call: bytes, and numbers in the width that their field has."""
    number, kinds = CALLS[call]
    return request(number, [x if kind == BYTES else be(kind, x) for kind, x in zip(kinds, values)])


def command():
    return [PROGRAM]


def answers(requests):
    """The lines that the driver writes in answer to requests."""
    done = subprocess.run(command(), input=b"".join(requests), capture_output=True)
    if done.returncode != 0:
        raise RuntimeError(f"the driver ended with status {done.returncode}: {done.stderr.decode(errors='replace')}")
    return done.stdout.decode().split("\n")[:-1]


class Running:
    """A run of the driver that is asked request by request."""

    def __enter__(self):
        self.run = subprocess.Popen(command(), stdin=subprocess.PIPE, stdout=subprocess.PIPE)
        return self

    def ask(self, call, *values):
        """The line that the driver writes in answer."""
        self.run.stdin.write(call_request(call, values))
        self.run.stdin.flush()
        return self.run.stdout.readline().decode().rstrip("\n")

    def __exit__(self, *_):
        self.run.stdin.close()
        self.run.stdout.close()
        if self.run.wait() != 0:
            raise RuntimeError(f"the driver ended with status {self.run.returncode}")
