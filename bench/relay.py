"""A road between a server of this machine and those who ask it: it passes datagrams on, each after a delay, and loses some.

    python3 bench/relay.py PORT TO MILLISECONDS PERCENT

It listens at PORT, and passes on what comes to port TO, and what is answered back. Each way a datagram takes MILLISECONDS, and PERCENT of them are lost. Who
asks has a port of its own at the server, so that the server tells peers apart. It says when it listens, and at a TERM how many datagrams came and how
many of them were lost.

Which are lost is drawn for each asker and each way: of the n-th who asks the k-th datagram has the same fate in each run."""
import collections
import random
import select
import signal
import socket
import sys
import time

HOST, LONGEST = "127.0.0.1", 2048


def bound(port=0):
    it = socket.socket(socket.AF_INET, socket.SOCK_DGRAM)
    it.setblocking(False)
    it.bind((HOST, port))
    return it


class Way:
    """One way of one asker: which of its datagrams are lost, and how the others leave."""

    def __init__(self, name, loss, send):
        self.draw, self.loss, self.send = random.Random(name), loss, send

    def loses(self):
        return self.draw.random() < self.loss


class Relay:
    def __init__(self, port, to, delay, loss):
        self.to, self.delay, self.loss = to, delay, loss
        self.near = bound(port)
        # The way there of each asker, by its address; the way back of each, by its port at the server.
        self.there, self.back = {}, {}
        # What is on its way, in order of time, since each takes as long: when it arrives, its way, and the datagram.
        self.going = collections.deque()
        self.came = self.lost = 0

    def meet(self, asker):
        """Who asks for the first time gets a port at the server."""
        far = bound()
        far.connect((HOST, self.to))
        number = len(self.there)
        self.there[asker] = Way(f"there {number}", self.loss, far.send)
        self.back[far] = Way(f"back {number}", self.loss, lambda datagram: self.near.sendto(datagram, asker))

    def take(self, ready):
        """A datagram that waits at this socket sets out, or is lost."""
        try:
            datagram, sender = ready.recvfrom(LONGEST)
        except OSError:
            # Nobody listens at the port to which the last one went.
            return
        if ready is self.near and sender not in self.there:
            self.meet(sender)
        if ready is self.near:
            self.hear(sender, datagram)
        way = self.there[sender] if ready is self.near else self.back[ready]
        self.came += 1
        if way.loses():
            self.lost += 1
        else:
            self.going.append((time.monotonic() + self.delay, way, datagram))

    def hear(self, asker, datagram):
        """What an asker sends, whether it is lost or not. A road does nothing with it."""

    def arrive(self):
        """What has been on its way for long enough arrives."""
        while self.going and self.going[0][0] <= time.monotonic():
            _, way, datagram = self.going.popleft()
            try:
                way.send(datagram)
            except OSError:
                # Nobody listens there.
                pass

    def run(self):
        while True:
            wait = max(0, self.going[0][0] - time.monotonic()) if self.going else None
            for ready in select.select([self.near, *self.back], [], [], wait)[0]:
                self.take(ready)
            self.arrive()


def main():
    port, to, milliseconds, percent = int(sys.argv[1]), int(sys.argv[2]), float(sys.argv[3]), float(sys.argv[4])
    relay = Relay(port, to, milliseconds / 1000, percent / 100)
    signal.signal(signal.SIGTERM, lambda *_: sys.exit())
    print(f"listening on {HOST}:{port}", flush=True)
    try:
        relay.run()
    finally:
        print(f"{relay.lost} of {relay.came} datagrams lost on the road", flush=True)


if __name__ == "__main__":
    main()
