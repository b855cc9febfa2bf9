#!/usr/bin/env python3
"""Passes on what an OSCORE client and its server send, and opens it. The ciphers are those of Python's `cryptography`; the rest is written from the
RFCs alone: CoAP (RFC 7252), OSCORE (RFC 8613), and the exchange at authz-info (RFC 9203). It knows the token's secret and algorithm, and reads all else
of the context off the wire: both nonces, and both ids.

    unprotect.py SECRET ALGORITHM LISTEN_PORT SERVER_PORT

It passes datagrams on between one client and the server until nothing came for two seconds, and then prints a line for each: who sent it, its code,
and for a protected message the code, the request's Partial IV and the plaintext, each in hexadecimal. A line after them has the context: both ids and the
master salt."""
import pathlib
import select
import socket
import sys

sys.path.insert(0, str(pathlib.Path(__file__).resolve().parent.parent.parent / "bench"))
sys.dont_write_bytecode = True

from oscore import OSCORE, Message, made_context, members  # noqa: E402


class Wire:
    def __init__(self, secret, algorithm):
        self.secret, self.algorithm, self.asked, self.requests, self.context = secret, algorithm, None, {}, None
        self.told = "no context"

    def line(self, sender, datagram):
        message = Message(datagram)
        protected = OSCORE in message.options
        if not protected:
            if sender == "client" and message.payload:
                self.asked = members(message.payload)
            elif message.code == 0x41 and self.asked:
                self.exchange(members(message.payload))
            return f"{sender} {message.code:02x}"
        option = message.options[OSCORE]
        if sender == "client":
            self.requests[message.token] = option[1 : 1 + (option[0] & 7)]
        partial_iv = self.requests[message.token]
        try:
            text = self.context.open(sender, partial_iv, message.payload).hex()
        except Exception:
            text = "does not open"
        return f"{sender} {message.code:02x} {partial_iv.hex()} {text}"

    def exchange(self, answer):
        self.context = made_context(self.secret, self.algorithm, self.asked, answer)
        self.told = f"context {self.context.client_id.hex()} {self.context.server_id.hex()} {self.context.salt.hex()}"


def main():
    secret, (algorithm, listen, server) = bytes.fromhex(sys.argv[1]), map(int, sys.argv[2:])
    inner = socket.socket(socket.AF_INET, socket.SOCK_DGRAM)
    inner.bind(("127.0.0.1", listen))
    outer = socket.socket(socket.AF_INET, socket.SOCK_DGRAM)
    outer.connect(("127.0.0.1", server))
    wire, client, wait, lines = Wire(secret, algorithm), None, 20, []
    while ready := select.select([inner, outer], [], [], wait)[0]:
        wait = 2
        for it in ready:
            datagram, peer = it.recvfrom(2048)
            if it is inner:
                client = peer
                lines.append(wire.line("client", datagram))
                outer.send(datagram)
            else:
                lines.append(wire.line("server", datagram))
                inner.sendto(datagram, client)
    print("\n".join([*lines, wire.told]))


main()
