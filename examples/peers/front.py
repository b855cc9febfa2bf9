#!/usr/bin/env python3
"""Takes tokens for a server of libcoap, which takes none: a post to authz-info (RFC 9203) starts coap-server-openssl with the new context, and all else is
passed on to it.

    front.py KEY PORT BACK FOLDER [LINE ..]

It listens at PORT of 127.0.0.1, and the server at BACK. FOLDER has the file of each context, in which each LINE is added (coap-oscore-conf(5))."""
import os
import pathlib
import select
import signal
import socket
import subprocess
import sys
import time

sys.path.insert(0, str(pathlib.Path(__file__).resolve().parent.parent.parent / "bench"))
sys.dont_write_bytecode = True

from cbor2 import dumps, loads  # noqa: E402
from oscore import CREATED, METHODS, OSCORE, Message, option  # noqa: E402
from resources import CLIENT_ID, CNF, NONCE1, NONCE2, OSC, SALT, SECRET, SERVER_ID, TOKEN, claims_of  # noqa: E402

HOST, URI_PATH, CONTENT_FORMAT = "127.0.0.1", 11, 12


def at(port=0):
    it = socket.socket(socket.AF_INET, socket.SOCK_DGRAM)
    it.bind((HOST, port))
    return it


class Front:
    def __init__(self, key, port, back, folder, words):
        self.key, self.near, self.back, self.folder, self.words = key, at(port), back, folder, words
        self.answers, self.fars, self.peers, self.server = {}, {}, {}, None

    def answer(self, datagram):
        """The answer to a post, which is made once for all its repeats."""
        if datagram not in self.answers:
            asked, nonce, own_id = loads(Message(datagram).payload), os.urandom(8), bytes([128 + len(self.answers) % 128])
            self.start(self.context(asked, nonce, own_id))
            head = bytes([0x60 | datagram[0] & 15, CREATED]) + datagram[2 : 4 + (datagram[0] & 15)]
            self.answers[datagram] = head + option(CONTENT_FORMAT, b"\x13") + b"\xff" + dumps({NONCE2: nonce, SERVER_ID: own_id})
        return self.answers[datagram]

    def context(self, asked, nonce, own_id):
        """A file with the context of this exchange, for the server."""
        granted, name = claims_of(self.key, asked[TOKEN])[CNF][OSC], f"{self.folder}/made{len(self.answers)}"
        salt = b"".join(map(dumps, [granted.get(SALT, b""), asked[NONCE1], nonce]))
        members = {"master_secret": granted[SECRET], "master_salt": salt, "sender_id": asked[CLIENT_ID], "recipient_id": own_id}
        with open(name, "w", encoding="utf-8") as it:
            it.writelines(f'{member},hex,"{value.hex()}"\n' for member, value in members.items())
            it.writelines(f"{line}\n" for line in self.words)
        return name

    def start(self, context):
        self.stop()
        self.server = subprocess.Popen(["coap-server-openssl", "-A", HOST, "-p", str(self.back), "-d", "9", "-E", context])
        while self.server.poll() is None and f":{self.back:04X} " not in pathlib.Path("/proc/net/udp").read_text(encoding="ascii"):
            time.sleep(0.05)

    def stop(self):
        if self.server:
            self.server.terminate()
            self.server.wait()

    def take(self, ready):
        try:
            datagram, peer = ready.recvfrom(2048)
        except OSError:
            # The server isn't there.
            return
        if ready is not self.near:
            self.near.sendto(datagram, self.peers[ready])
            return
        message = Message(datagram)
        if message.code == METHODS["POST"] and OSCORE not in message.options and message.options.get(URI_PATH) == b"authz-info":
            self.near.sendto(self.answer(datagram), peer)
            return
        if peer not in self.fars:
            self.fars[peer] = at()
            self.fars[peer].connect((HOST, self.back))
            self.peers[self.fars[peer]] = peer
        self.fars[peer].send(datagram)

    def run(self):
        while True:
            for ready in select.select([self.near, *self.peers], [], [])[0]:
                self.take(ready)


def main(key, port, back, folder, *words):
    front = Front(bytes.fromhex(key), int(port), int(back), folder, words)
    signal.signal(signal.SIGTERM, lambda *_: sys.exit())
    try:
        front.run()
    finally:
        front.stop()


main(*sys.argv[1:])
