"""Whether what a server with a store answered is there after it was killed, also with the power gone, by a real file and sockets on loopback.

    bash bench/run kills [KILLS]

A server with a store is killed (kill -9) KILLS times, 1000 where they are left out, each time at a random time up to a seventh of a second after its holders
began, and once in ten right at its start. Four holders have up to 16 changes open each: PUTs, POSTs and DELETEs of eight paths of their own, in a random
order. After each kill `osc store` and then the server, which starts again from the file, have to find of each holder what a beginning of its changes leaves,
in the order in which it sent them, with each that was answered; and of all others nothing.

In one life of twenty a sync fails instead: the server has to end by itself, with status 4 and a line that says so. Half of the times the power goes with the
server: of each sector that was written since the last sync of its file there is then what was before, what was written, or some bytes of both and of neither
(bench/torn.c has what was synced, so a C compiler is needed).

Then a server's store is on a disk of 512 kB, where this user may mount one: it has to end likewise once the disk is full. On a larger disk it starts again,
and has what it answered.

The status is 1 where something isn't so. It needs the port 5985 of this machine. OSC_SEED is the seed of its times, which the first line tells. Files are
made in OSC_FOLDER, or in /dev/shm: what is killed loses nothing there that it would keep on a disk."""
import os
import pathlib
import random
import select
import subprocess
import tempfile
import time
import tomllib

from asker import PATIENCE, Asker
from lib import Holder, Server, fail, given, library, osc
from oscore import CHANGED, CONTENT, CREATED, DELETED, NOT_FOUND, spelled

PORT, SECTOR = 5985, 512
HOLDERS, OPEN, PATHS, LONGEST = 4, 16, 8, 500
# How long a life is at most, one that is killed at its start, and one that the server ends, in seconds.
LIFE, START, LONG = 1 / 7, 0.02, 600


class Changer:
    """A holder of all below a path of its own, the resources there before this life, and its changes since: the path and what it has then, or none."""

    def __init__(self, folder, number, times, paths=PATHS, methods="GET+PUT+POST+DELETE"):
        self.own, self.times, self.kinds = f"/{number}", times, methods.split("+")[1:]
        self.paths = [f"{self.own}/{path}" for path in range(paths)]
        self.token = Holder(folder, PORT, f"{self.own}:{methods}+SUB", f"{number:02x}").token
        self.before, self.now, self.changes, self.wanted, self.answered = {}, {}, [], [], 0

    def begin(self):
        """Posts its token."""
        self.asker, self.number, self.first = Asker(PORT, self.token), 0, 0

    def ask(self, *words):
        """Sends a request, and gives its number. One that nobody hears is lost like one that comes too late."""
        try:
            self.asker.socket.send(self.asker.sealed(self.number, *words))
        except ConnectionRefusedError:
            pass
        self.number += 1
        return self.number - 1

    def change(self):
        """Sends a change."""
        path, kind = self.times.choice(self.paths), self.times.choice(self.kinds)
        was, more = self.now.get(path), b"%d " % len(self.changes) * self.times.randrange(1, 60)
        if kind == "POST" and was and len(was + more) <= LONGEST:
            now = was + more
        elif kind == "DELETE":
            now, more = None, b""
        else:
            kind, now, more = "PUT", more[:LONGEST], more[:LONGEST]
        self.changes.append((path, now))
        self.wanted.append(DELETED if kind == "DELETE" else CHANGED if was else CREATED)
        self.now = laid(self.now, path, now)
        self.ask(kind, path, more)

    def hear(self):
        """Counts the answers that came, each to the next change."""
        for datagram in self.asker.heard():
            number, answer = self.asker.opened(datagram)
            path, wanted = self.changes[self.answered][0], self.wanted[self.answered]
            if (number, answer.code) != (self.first + self.answered, wanted):
                fail(f"change {self.answered} of {path} wants {spelled(wanted)}, and request {number - self.first} is answered {spelled(answer.code)}")
            self.answered += 1

    def keep_open(self):
        while len(self.changes) - self.answered < OPEN:
            self.change()

    def look(self):
        """Begins to GET what the server has of its resources."""
        self.asker.made()
        self.asked, self.rest = {}, list(self.paths)
        self.look_on()

    def look_on(self):
        while self.rest and len(self.asked) < OPEN:
            path = self.rest.pop()
            self.asked[self.ask("GET", path)] = path

    def found(self):
        """What the server has of its resources."""
        has = {}
        while self.asked:
            heard = self.asker.heard(PATIENCE)
            if not heard:
                fail(f"{self.own}: GETs aren't answered")
            for number, answer in map(self.asker.opened, heard):
                path = self.asked.pop(number)
                if answer.code == CONTENT:
                    has[path] = answer.payload
                elif answer.code != NOT_FOUND:
                    fail(f"GET {path} is answered {spelled(answer.code)}")
            self.look_on()
        self.first = self.number
        return has

    def settle(self, has):
        """Takes what there is for the beginning of the next life; gives how many changes were answered, and how many more are there."""
        trees = [self.before]
        for change in self.changes:
            trees.append(laid(trees[-1], *change))
        leave = [number for number, tree in enumerate(trees) if tree == has]
        kept = [number for number in leave if number >= self.answered]
        if not kept:
            answered = f"{self.own}: {self.answered} of {len(self.changes)} changes were answered"
            others = " ".join(differing(has, trees[self.answered]))
            fail(f"{answered}, and there is what {leave[-1]} leave" if leave else f"{answered}, and there is what no beginning of them leaves, at {others}")
        told = self.answered, kept[0] - self.answered
        self.before, self.now, self.changes, self.wanted, self.answered = has, has, [], [], 0
        return told


def differing(tree, other):
    """The paths that haven't the same in both."""
    return sorted(path for path in {*tree, *other} if tree.get(path) != other.get(path))


def laid(tree, path, now):
    """The tree in which the path has this, or nothing."""
    rest = {other: payload for other, payload in tree.items() if other != path}
    return rest if now is None else {**rest, path: now}


class Node(Server):
    """A server over this store, and the holders who change it."""

    def __init__(self, folder, store, changers, env=None):
        super().__init__(folder, PORT, "open = []", f'store = "{store}"', env=env)
        self.store, self.changers = store, changers

    def live(self, until):
        """A life after its start: the holders change what they like until then, when the server is killed, or until it ends by itself."""
        sockets = [changer.asker.socket for changer in self.changers]
        while time.monotonic() < until and self.process.poll() is None:
            for changer in self.changers:
                changer.keep_open()
            select.select(sockets, [], [], max(0, min(until - time.monotonic(), 0.01)))
            for changer in self.changers:
                changer.hear()
        ended = self.process.poll() is not None
        self.kill()
        for changer in self.changers:
            changer.hear()
        return ended

    def ended_by(self, why=""):
        """Sees that it ended by itself, and that its last line says so, for this reason where there is one."""
        line = self.said().strip().rpartition("\n")[2]
        if self.process.returncode != 4 or not line.startswith(f"store {self.store}: {why}"):
            fail(f"the server should end with status 4 and a line on its store, and ends with {self.process.returncode}: {line}")

    def fails(self, number):
        """A life in which the sync of this number fails."""
        self.kill()
        self.env["FAILS"] = str(number)
        self.start()
        while self.process.poll() is None and "listening on" not in self.said():
            time.sleep(0.001)
        if self.process.poll() is None:
            for changer in self.changers:
                changer.begin()
            for changer in self.changers:
                changer.asker.made()
            self.live(time.monotonic() + LONG)
        del self.env["FAILS"]
        self.ended_by()

    def listed(self):
        """What `osc store` finds in the file."""
        done = subprocess.run([osc(), "store", "--dump", self.store], capture_output=True, text=True, check=False)
        if done.returncode != 0:
            fail(f"osc store ends with status {done.returncode}: {done.stderr}")
        rows = tomllib.loads(done.stdout).get("resource", [])
        return {row["path"]: row["text"].encode() if "text" in row else bytes.fromhex(row["hex"]) for row in rows}

    def starts(self):
        """Starts again, and sees that all is as it should be; gives how many changes were answered in the life before, and how many more are there."""
        listed = self.listed() if self.store.exists() else {}
        self.start()
        self.wait()
        for changer in self.changers:
            changer.begin()
        for changer in self.changers:
            changer.look()
        has = {changer: changer.found() for changer in self.changers}
        served = {path: payload for found in has.values() for path, payload in found.items()}
        if listed != served:
            fail(f"osc store lists other resources than the server has, at {' '.join(differing(listed, served))}")
        told = [changer.settle(found) for changer, found in has.items()]
        return map(sum, zip(*told))


def torn(kept, now, times):
    """What a power cut leaves of a file that was synced like this, and written since."""
    length = times.choice((len(kept), len(now)))
    kept, now = (it[:length].ljust(length, b"\0") for it in (kept, now))
    left, likely = bytearray(kept), times.choice((0, 0.1, 0.5, 0.9, 1))
    for at in range(0, length, SECTOR):
        old, new = kept[at : at + SECTOR], now[at : at + SECTOR]
        if old == new:
            continue
        if times.random() < 0.1:
            end = times.randrange(SECTOR)
            mixed = times.choice((new[:end] + old[end:], old[:end] + new[end:], times.randbytes(SECTOR)))
            new = bytes(c if a != b else a for a, b, c in zip(old, new, mixed))
        elif times.random() >= likely:
            continue
        left[at : at + SECTOR] = new
    return bytes(left)


class Disk:
    """The files of a store, and what the disk has of them for sure."""

    def __init__(self, folder, store):
        self.synced, self.files = folder / "synced", [store, store.with_name(store.name + "-wal")]
        self.synced.mkdir()
        self.env = dict(os.environ, LD_PRELOAD=str(library(folder, "torn")), SYNCED=str(self.synced))

    def sync(self):
        for file in self.files:
            (self.synced / file.name).write_bytes(file.read_bytes())

    def tear(self, times):
        for file in self.files:
            file.write_bytes(torn((self.synced / file.name).read_bytes(), file.read_bytes(), times))
        self.sync()


def kill_all(folder, kills, times):
    """Kills the server so often; gives how many changes were answered, and how many were found that were under way."""
    store = folder / "store"
    disk = Disk(folder, store)
    node = Node(folder, store, [Changer(folder, number, times) for number in range(HOLDERS)], disk.env)
    total = found = 0
    try:
        # (what is tried is a store that is there)
        node.starts()
        disk.sync()
        for _ in range(kills):
            kind = times.randrange(20)
            if kind == 0:
                node.fails(times.randrange(1, 60))
            elif kind < 3:
                node.kill()
                node.start()
                time.sleep(times.random() * START)
                node.kill()
            elif node.live(time.monotonic() + times.random() * LIFE):
                fail(f"the server ends by itself: {node.said()}")
            if times.randrange(2) == 0:
                disk.tear(times)
            answered, more = node.starts()
            total, found = total + answered, found + more
    finally:
        node.kill()
    return total, found


def fill(folder, small, times):
    """Changes until the disk is full; gives how many changes were answered."""
    node = Node(folder, small / "store", [Changer(folder, 0, times, 1000, "GET+PUT")])
    try:
        node.starts()
        node.live(time.monotonic() + LONG)
        node.ended_by("the disk or the file is full")
        subprocess.run(["mount", "-o", "remount,size=8m", small], check=True)
        return next(node.starts())
    finally:
        node.kill()


def main():
    kills = given(1000)
    seed = int(os.environ.get("OSC_SEED", random.randrange(1 << 32)))
    times = random.Random(seed)
    print(f"kills: {kills}, seed {seed}", flush=True)
    begun = time.monotonic()
    with tempfile.TemporaryDirectory(dir=os.environ.get("OSC_FOLDER", "/dev/shm")) as name:
        total, found = kill_all(pathlib.Path(name), kills, times)
    print(f"kills: {total} changes were answered, and each is there, in order; {found} that were under way are there too")
    print(f"kills: {time.monotonic() - begun:.0f} seconds")
    with tempfile.TemporaryDirectory() as name:
        small = pathlib.Path(name) / "small"
        small.mkdir()
        if subprocess.run(["mount", "-t", "tmpfs", "-o", "size=512k", "tmpfs", small], capture_output=True, check=False).returncode != 0:
            print("kills: left out: a full disk, since no folder can be mounted")
            return
        try:
            print(f"kills: a disk was full after {fill(pathlib.Path(name), small, times)} changes, and each is there")
        finally:
            subprocess.run(["umount", small], check=True)


main()
