"""What a server with a store does for one holder who changes resources at full rate, and for everybody else meanwhile, beside SQLite's own library.

    bash bench/run keep [SECONDS]

All files are in memory, and a sync takes 0.2 milliseconds there (bench/slow.c), the same for each program. A holder's PUTs go over 1,000 paths, of 64 bytes
each, for SECONDS, 5 where they are left out: one open at a time, then 16, as many as clients and proxies of this repository have open to a peer, and then 96,
of a holder who ignores that pace and fills the server's socket. Meanwhile a stranger GETs an open resource 100 times a second: the times to its answers are
told at half and at 99 of 100, and without PUTs. Beside them SQLite's library keeps the same rows on the same disk by a program in C (WAL, synchronous=FULL, a transaction a change; Debian's libsqlite3-dev).

The status is 1 where beside 16 open PUTs half of the GETs take 5 milliseconds or more, or fewer changes are kept than by SQLite's library. It needs the
port 5987 of this machine and a C compiler. Files are made in OSC_FOLDER, or in /dev/shm. Figures are those of a proved program."""
import multiprocessing
import os
import pathlib
import resource
import select
import shlex
import socket
import struct
import subprocess
import sys
import tempfile
import time

from asker import PATIENCE, Asker
from lib import HOST, ROOT, Holder, Server, fail, given, library
from oscore import CHANGED, CONTENT, CREATED, option, spelled

PORT, PATHS, RATE = 5987, 1000, 100
PACE, MOST_MILLISECONDS = 16, 5
OPEN = (1, PACE, 96)


def built(work):
    """The program of SQLite's library, where that is installed; and the environment in which a sync is slow."""
    env, upserts = dict(os.environ, LD_PRELOAD=str(library(work, "slow")), SYNCS=str(work / "syncs")), work / "upserts"
    words = [*shlex.split(os.environ.get("CC", "cc")), "-O2", "-o", upserts, ROOT / "bench/upserts.c", "-lsqlite3"]
    (work / "syncs").write_bytes(bytes(8))
    return upserts if subprocess.run(words, capture_output=True, check=False).returncode == 0 else None, env


def put_all(asker, most, seconds, told):
    """Has so many requests open for so long. Tells how many were sent, the answers, and how long it took until the last one."""
    sent, answers, begun, taken = 0, [], time.monotonic(), 0
    while taken < seconds or len(answers) < sent:
        if taken < seconds:
            for number in range(sent, len(answers) + most):
                asker.socket.send(asker.sealed(number, "PUT", f"/log/{number % PATHS}", b"%064d" % number))
            sent = len(answers) + most
        heard = asker.heard(PATIENCE)
        if not heard:
            break
        answers += heard
        taken = time.monotonic() - begun
    told.send((sent, answers, taken))


class Stranger:
    """Who GETs /e, a message at a time that is due, whatever became of those before."""

    def __init__(self):
        self.socket = socket.socket(socket.AF_INET, socket.SOCK_DGRAM)
        self.socket.connect((HOST, PORT))
        self.sent, self.taken = [], {}

    def hear(self, seconds):
        until = time.monotonic() + seconds
        while select.select([self.socket], [], [], max(0, until - time.monotonic()))[0]:
            try:
                answer, now = self.socket.recv(2048), time.monotonic()
            except ConnectionRefusedError:
                fail("the server has ended")
            number = int.from_bytes(answer[2:4], "big")
            if answer[1] == CONTENT and number < len(self.sent):
                self.taken.setdefault(number, now - self.sent[number])

    def ask(self, seconds):
        """Asks for so long: milliseconds to the answers at half and at 99 of 100 of the GETs. One that isn't answered counts as long as it was waited for."""
        begun = time.monotonic()
        while len(self.sent) < seconds * RATE:
            self.hear(begun + len(self.sent) / RATE - time.monotonic())
            self.sent.append(time.monotonic())
            self.socket.send(bytes([0x40, 1]) + struct.pack(">H", len(self.sent) - 1) + option(11, b"e"))
        until = time.monotonic() + PATIENCE
        while len(self.taken) < len(self.sent) and time.monotonic() < until:
            self.hear(0.1)
        taken = sorted(1000 * self.taken.get(number, PATIENCE) for number in range(len(self.sent)))
        return taken[len(taken) // 2], taken[len(taken) * 99 // 100]


def changed(token, most, seconds):
    """So many open PUTs: how many were answered and in how many seconds, and the GETs beside them."""
    asker = Asker(PORT, token).made()
    forked = multiprocessing.get_context("fork")
    ours, theirs = forked.Pipe(duplex=False)
    holder = forked.Process(target=put_all, args=(asker, most, seconds, theirs))
    holder.start()
    times = Stranger().ask(seconds)
    sent, answers, taken = ours.recv()
    holder.join()
    for number, answer in map(asker.opened, answers):
        if answer.code not in (CREATED, CHANGED):
            fail(f"PUT {number} is answered {spelled(answer.code)}")
    if len(answers) < sent:
        # A machine that is busy with other work has no room for datagrams that wait.
        print(f"keep: of {sent} PUTs {sent - len(answers)} were lost or not answered in {PATIENCE} seconds")
    return len(answers), taken, times


def processor(process):
    """The seconds of a processor that a process has taken."""
    user, system = pathlib.Path(f"/proc/{process.pid}/stat").read_text().rpartition(")")[2].split()[11:13]
    return (int(user) + int(system)) / os.sysconf("SC_CLK_TCK")


def row(what, changes, seconds, syncs, taken, times=None):
    """What so many changes took: seconds by the clock and of a processor, and syncs; and how long GETs took beside them."""
    rate = changes / seconds
    more = f"; GETs {times[0]:.2f} and {times[1]:.2f} ms" if times else ""
    print(f"{what:20} {rate:6.0f} changes a second, each {syncs / changes:.2f} syncs and {1000 * taken / changes:.3f} ms of a processor{more}", flush=True)
    return rate


def synced(work):
    """The syncs so far."""
    return struct.unpack("=Q", (work / "syncs").read_bytes())[0]


def served(work, env, token, seconds):
    """What a server does, a row for each number of open PUTs: the changes a second, and the times of the GETs, at each."""
    found = {}
    with Server(work, PORT, 'open = ["/e"]', f'store = "{work}/store"', "[[resource]]", 'path = "/e"', 'text = "open"', env=env) as server:
        print(f"{'no PUTs':20} GETs {{:.2f}} and {{:.2f}} ms".format(*Stranger().ask(seconds)), flush=True)
        for most in OPEN:
            before, begun = synced(work), processor(server.process)
            changes, taken, times = changed(token, most, seconds)
            what = f"{most} open PUT{'s' * (most > 1)}"
            found[most] = row(what, changes, taken, synced(work) - before, processor(server.process) - begun, times), times
    return found


def main():
    seconds = given(5.0)
    if not seconds > 0:
        fail("it takes a number of seconds, or nothing", 2)
    with tempfile.TemporaryDirectory(dir=os.environ.get("OSC_FOLDER", "/dev/shm")) as name:
        work, own = pathlib.Path(name), 0
        upserts, env = built(work)
        token = Holder(work, PORT, "/log:PUT+SUB").token
        found = served(work, env, token, seconds)
        if upserts:
            before, begun = synced(work), resource.getrusage(resource.RUSAGE_CHILDREN)
            done = subprocess.run([upserts, work / "sqlite", str(seconds), str(PATHS)], check=True, capture_output=True, text=True, env=env)
            changes, taken = map(float, done.stdout.split())
            ended = resource.getrusage(resource.RUSAGE_CHILDREN)
            own = row("SQLite's own library", changes, taken, synced(work) - before, ended.ru_utime + ended.ru_stime - begun.ru_utime - begun.ru_stime)
        else:
            print("keep: SQLite's library isn't installed (Debian's libsqlite3-dev): left out")
    rate, (half, _) = found[PACE]
    if half >= MOST_MILLISECONDS:
        print(f"keep: beside {PACE} open PUTs half of the GETs take {half:.2f} ms; less than {MOST_MILLISECONDS} are wanted")
    if rate < own:
        print(f"keep: {rate:.0f} changes a second of {PACE} open PUTs; as many as SQLite's {own:.0f} are wanted")
    sys.exit(1 if half >= MOST_MILLISECONDS or rate < own else 0)


main()
