"""python3 tests/growth.py: how the times of publishing and of the writers grow.

Each line is the driver program's user time for one request, the best of several runs, less what reading the request costs, which is measured
on one that is refused at once (1: a name of no bytes, or an audit of epoch 0). Of publishing 256 updates, `shape` is what a request takes
that is refused behind the shape test (9, a name twice). Run `tools/build driver` first, which builds the program.
"""
import resource
import subprocess
import sys

sys.dont_write_bytecode = True
import driver
import publish_cases

RECORDS = [256, 512, 1024, 2048, 3840]
VERSIONS = [1, 10, 100, 1023]
TABLES = [256, 1024, 4096]
PROOF = b"VKD".hex()
ROOM = 10**6
REPEATED = 10
RUNS = 5


def user_time(requests, expected):
    """The user time of the driver on the requests, whose answers begin as expected."""
    before = resource.getrusage(resource.RUSAGE_CHILDREN).ru_utime
    done = subprocess.run(driver.command(), input=b"".join(requests), capture_output=True, check=True)
    spent = resource.getrusage(resource.RUSAGE_CHILDREN).ru_utime - before
    for line in done.stdout.decode().split("\n")[:-1]:
        if not line.startswith(expected):
            sys.exit(f"the driver answered {line[:60]} where {expected} was expected")
    return spent


def best(call, values, expected):
    request = driver.call_request(call, values)
    return min(user_time([request] * REPEATED, expected) for _ in range(RUNS)) / REPEATED * 1000


def name(i):
    return b"crew-%06d" % i


def rows(many):
    """Records of epochs 1 and 2, of which a third replace an earlier one."""
    third = many // 3
    return [(name(i), 1, 1) for i in range(many - third)] + [(name(i), 2, 2) for i in range(third)]


def table(rows):
    return b"".join(publish_cases.record(*row) for row in rows).ljust(4096 * 168, b"\0")


def publishing(many, kind):
    """So many records, and a batch of 256 new names."""
    names = [b"new-%06d" % i for i in range(256)]
    if kind == "twice":
        names[255] = names[254]
    batch = b"".join(publish_cases.update(n) for n in names)
    if kind == "bad":
        batch = b"\0" + batch[1:]
    return table(rows(many)), bytes(8 * 32), many, 2, batch


def show_publishing():
    print("records   all ms  shape ms  all / 256 records")
    first = None
    for many in RECORDS:
        read = best("publish", publishing(many, "bad"), "refused 1")
        shape = best("publish", publishing(many, "twice"), "refused 9") - read
        whole = best("publish", publishing(many, "good"), f"{many + 256} 3 ") - read
        first = first or whole
        print(f"{many:7} {whole:8.2f} {shape:9.2f} {whole / first:8.2f}")


def writing(call, tables, fields, refused):
    """The time of a proof, and its length."""
    proof = driver.answers([driver.call_request(call, [*tables, *fields, ROOM])])[0]
    spent = best(call, [*tables, *fields, ROOM], PROOF) - best(call, [*tables, *refused, ROOM], "refused 1")
    return f"{spent:8.2f} {len(proof) // 2:8}"


def show_histories():
    print("versions       ms    bytes of a history, of one name alone in the table")
    for n in VERSIONS:
        tables = table((b"ada", v, v) for v in range(1, n + 1)), bytes(1024 * 32), n, n
        print(f"{n:8} {writing('write_history', tables, [b'ada', n], [b'', n])}")


def show_tables():
    print("records  lookup ms    bytes    history ms    bytes  audit of 256 updates ms    bytes")
    for many in TABLES:
        new = [(b"new-%06d" % i, 1, 3) for i in range(256)]
        tables = table(rows(many - 256) + new), bytes(8 * 32), many, 3
        lookup, history = (writing(call, tables, [new[0][0], 3], [b"", 3]) for call in ("write_lookup", "write_history"))
        print(f"{many:7}   {lookup}      {history}                 {writing('write_audit', tables, [3], [0])}")


if __name__ == "__main__":
    show_publishing()
    show_histories()
    show_tables()
