"""What it costs a server to keep a change: a table of changes a second.

    bash bench/run store [CHANGES]

One client makes CHANGES changes of 1,024 paths, 4,000 where they are left out, of a server without a store and of one with a store, one after the other. What a change
takes longer with the store is the time to keep it. Beside it on the same disk: SQLite's own library, by Python (WAL, synchronous=FULL, an upsert and
a commit a change), and a plain append with fsync. Files are made in OSC_FOLDER, or where Python makes them. It needs the port 5986 of this machine.
Figures are those of a proved program."""
import os
import pathlib
import sqlite3
import tempfile
import time

from lib import Holder, Server, fail, given

PORT, PATHS = 5986, 1024


def seconds(call, changes):
    """How long a change takes, by the median of blocks of ten: other work of the machine comes in bursts."""
    blocks = []
    for first in range(0, changes, 10):
        begin = time.monotonic()
        for number in range(first, first + 10):
            call(number)
        blocks.append((time.monotonic() - begin) / 10)
    return sorted(blocks)[len(blocks) // 2]


def served(folder, changes, *lines):
    holder = Holder(folder, PORT, "/log:PUT+SUB")

    def put(number):
        said = holder.ask("PUT", f"/log/{number % PATHS}", "--text", f"{number:064}")
        if " answer 2.0" not in said:
            fail(said)

    with Server(folder, PORT, "open = []", *lines):
        return seconds(put, changes)


def upserts(folder, changes):
    it = sqlite3.connect(folder / "sqlite", isolation_level=None)
    it.execute("PRAGMA journal_mode = wal")
    it.execute("PRAGMA synchronous = full")
    it.execute("CREATE TABLE resource(path TEXT PRIMARY KEY, format INTEGER, payload BLOB NOT NULL) STRICT, WITHOUT ROWID")

    def put(number):
        it.execute("INSERT OR REPLACE INTO resource VALUES (?, NULL, ?)", (f"/log/{number % PATHS}", b"%064d" % number))

    return seconds(put, changes)


def appends(folder, changes):
    with open(folder / "plain", "ab", buffering=0) as it:

        def put(number):
            it.write(b"%064d" % number)
            os.fsync(it.fileno())

        return seconds(put, changes)


changes = given(4000)
with tempfile.TemporaryDirectory(dir=os.environ.get("OSC_FOLDER")) as name:
    folder = pathlib.Path(name)
    without = served(folder, changes)
    kept = served(folder, changes, f'store = "{folder}/store"')
    rows = [("the store", kept - without), ("SQLite's own library", upserts(folder, changes)), ("append and fsync", appends(folder, changes))]
print(f"a call without a store takes {without * 1000:.1f} ms, with one {kept * 1000:.1f} ms")
for name, time_of_one in rows:
    print(f"{name:22} {time_of_one * 1000:6.2f} ms a change, {1 / max(time_of_one, 1e-6):6.0f} a second")
