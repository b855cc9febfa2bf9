"""Whether posts and requests that were captured on their way do a holder harm, by sockets on loopback.

    bash bench/run replays [CALLS]

A token's holder makes CALLS calls, 50 where they are left out, one after the other: each posts the token and asks once. Meanwhile a captured post of
its token comes again 200 times a second from another port, each time under a new message ID:
- its newest one, also right before its own copy and right before the request: each call has to be answered;
- its first one, while each datagram of the holder takes 20 milliseconds. The server knows the eight newest posts of a token id, so this one makes a
  context once in eight calls: one in eight may fail;
- the same under another nonce each time, which no server can tell from a post of the holder's own: any call may fail.
Then a request is held back for 3 seconds at a server whose contexts count for 2 seconds. It has to be refused without protection, and so has the post
that came before it; a new call has to be answered. The status is 1 where something isn't so. It needs the ports 5983 and 5990 of this machine."""
import os
import pathlib
import select
import socket
import sys
import tempfile
import threading
import time

from lib import HOST, Holder, Server, given

SERVER, RELAY, SCOPE = (HOST, 5983), (HOST, 5990), "/e:GET+PUT"
# How often a second a post comes again, how many seconds a datagram takes, how many posts of a token id a server knows, and the number of the
# OSCORE option.
RATE, DELAY, KNOWN, OSCORE = 200, 0.02, 8, 9


def options(datagram):
    """The numbers of a message's options."""
    at, number, found = 4 + (datagram[0] & 15), 0, []

    def wide(value, at):
        if value == 13:
            return datagram[at] + 13, at + 1
        if value == 14:
            return int.from_bytes(datagram[at : at + 2], "big") + 269, at + 2
        return value, at

    while at < len(datagram) and datagram[at] != 0xFF:
        first = datagram[at]
        delta, at = wide(first >> 4, at + 1)
        length, at = wide(first & 15, at)
        number += delta
        found.append(number)
        at += length
    return found


def code(datagram):
    return f"{datagram[1] >> 5}.{datagram[1] & 31:02d}"


def under(datagram, number):
    """The same message with another message ID."""
    return datagram[:2] + (number % 65536).to_bytes(2, "big") + datagram[4:]


def bound(address=("127.0.0.1", 0)):
    it = socket.socket(socket.AF_INET, socket.SOCK_DGRAM)
    it.bind(address)
    return it


def with_other_nonce(post):
    """The same post with another nonce, which is 8 bytes (RFC 9203 section 4.1)."""
    at = post.rindex(b"\x18\x28\x48") + 3
    return post[:at] + os.urandom(8) + post[at + 8 :]


class Again:
    """Sends the captured message again and again from one port, once there is one, and counts what is answered."""

    def __init__(self, change=lambda datagram: datagram):
        self.datagram, self.sent, self.codes, self.over = None, 0, {}, False
        self.change = change
        self.socket = bound()
        self.socket.connect(SERVER)
        self.thread = threading.Thread(target=self.run, daemon=True)

    def send(self):
        if self.datagram:
            self.sent += 1
            self.socket.send(under(self.change(self.datagram), self.sent))

    def hear(self, seconds):
        until = time.monotonic() + seconds
        while select.select([self.socket], [], [], max(0, until - time.monotonic()))[0]:
            answer = code(self.socket.recv(2048))
            self.codes[answer] = self.codes.get(answer, 0) + 1

    def run(self):
        while not self.over:
            self.send()
            self.hear(1 / RATE)

    def __enter__(self):
        self.thread.start()
        return self

    def __exit__(self, *_):
        self.over = True
        self.thread.join()
        self.hear(0.2)
        self.socket.close()

    def told(self):
        return f"{self.sent} times, answered " + ", ".join(f"{it} {n} times" for it, n in sorted(self.codes.items()))


class Relay:
    """Passes datagrams on between a client and the server, and captures the newest post and the newest request under a context."""

    def __init__(self, again=None, holds_back=False, delay=0):
        self.post, self.request, self.over = None, None, False
        self.again, self.holds_back, self.delay = again, holds_back, delay
        self.inner, self.outer = bound(RELAY), bound()
        self.thread = threading.Thread(target=self.run, daemon=True)

    def captured(self, datagram):
        """What is done with a datagram of the client before it is passed on."""
        if OSCORE in options(datagram):
            self.request = datagram
        else:
            self.post = datagram
            if self.again:
                self.again.datagram = datagram
        if self.again:
            self.again.send()

    def run(self):
        client = None
        while not self.over:
            ready = select.select([self.inner, self.outer], [], [], 0.05)[0]
            if ready:
                time.sleep(self.delay)
            if self.outer in ready:
                self.inner.sendto(self.outer.recv(2048), client)
            if self.inner in ready:
                datagram, peer = self.inner.recvfrom(2048)
                if peer != client:
                    # Each client has a port of its own at the server, so that message IDs are its own too.
                    client = peer
                    self.outer.close()
                    self.outer = bound()
                    self.outer.connect(SERVER)
                self.captured(datagram)
                if not (self.holds_back and OSCORE in options(datagram)):
                    self.outer.send(datagram)

    def __enter__(self):
        self.thread.start()
        return self

    def __exit__(self, *_):
        self.over = True
        self.thread.join()
        self.inner.close()
        self.outer.close()


def server(work, *more):
    return Server(work, SERVER[1], "open = []", *more, words=["--log"])


def call(holder, timeout=10):
    """What one call prints."""
    return holder.ask("PUT", "/e", "--text", "hi", timeout=timeout)


def once_more(datagram):
    """What a message is answered that comes again from another port: the code, and whether the answer is protected."""
    with bound() as it:
        it.connect(SERVER)
        it.settimeout(10)
        it.send(under(datagram, 0x5555))
        answer = it.recv(2048)
    return code(answer), OSCORE in options(answer)


def answered(what, told, again, least):
    """Says how many of the calls were answered."""
    others = [(number, it) for number, it in enumerate(told, 1) if not it.startswith("c1 answer 2.0")]
    good = len(told) - len(others)
    print(f"replays: {what} comes again {again.told()}: {good} of {len(told)} calls are answered" + ("" if good >= least else f", and {least} should be"))
    for number, printed in others if good < least else ():
        print(f"replays: call {number}: {printed}")
    return good >= least


def newest_again(work, calls):
    with server(work):
        holder = Holder(work, RELAY[1], SCOPE)
        with Again() as again, Relay(again):
            told = [call(holder) for _ in range(calls)]
    return answered("the newest post", told, again, calls)


def first_again(work, calls, what, least, *change):
    with server(work):
        holder = Holder(work, RELAY[1], SCOPE)
        with Relay() as relay:
            call(holder)
        with Again(*change) as again, Relay(delay=DELAY):
            again.datagram = relay.post
            told = [call(holder) for _ in range(calls)]
    return answered(what, told, again, least)


def held_back(work):
    """A request that is held back for longer than its context counts."""
    status = True

    def told(what, is_, wanted):
        nonlocal status
        status &= is_ == wanted
        print(f"replays: {what}: {is_}" + ("" if is_ == wanted else f", and should be {wanted}"))

    with server(work, "context_seconds = 2") as node:
        holder = Holder(work, RELAY[1], SCOPE)
        with Relay(holds_back=True) as relay:
            told("a call whose request is held back", call(holder, 1), "c1 open")
        time.sleep(3)
        protection = {True: "protected", False: "unprotected"}
        for what, datagram in ("its request 3 seconds later", relay.request), ("its post again", relay.post):
            answer, protected = once_more(datagram)
            told(what, f"{answer} {protection[protected]}", "4.01 unprotected")
        holder.asks_at(SERVER[1])
        told("a new call", call(holder), "c1 answer 2.01 none -")
        reasons = [line.rsplit(" ", 1)[1] for line in node.said().splitlines() if " refused 4.01" in line]
        told("the reasons of the two refusals", " ".join(reasons), "(22) (23)")
    return status


calls = given(50)
with tempfile.TemporaryDirectory() as folder:
    work = pathlib.Path(folder)
    good = [
        newest_again(work, calls),
        first_again(work, calls, "the first post", calls - calls // KNOWN - 1),
        first_again(work, calls, "the first post under other nonces", 0, with_other_nonce),
        held_back(work),
    ]
sys.exit(0 if all(good) else 1)
