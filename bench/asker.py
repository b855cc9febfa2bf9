"""A token's holder who has many requests open at once, which `osc client` doesn't."""
import os
import select
import socket

from lib import HOST, SECRET, fail

try:
    from oscore import CLIENT_RECIPIENT_ID, CREATED, METHODS, NONCE1, OSCORE, TOKEN, Message, cbor, made_context, members, option, spelled
except ImportError:
    fail("Python's cryptography isn't installed (Debian's python3-cryptography)", 2)

# For so many seconds an answer is waited for.
PATIENCE = 10


class Asker:
    """A context at a server of this machine, once it is made, and the socket of its requests. A request's number is its Partial IV and its token."""

    def __init__(self, port, token, secret=SECRET, algorithm=10):
        """Posts the token."""
        self.socket, self.secret, self.algorithm = socket.socket(socket.AF_INET, socket.SOCK_DGRAM), bytes.fromhex(secret), algorithm
        self.socket.connect((HOST, port))
        self.socket.setblocking(False)
        self.asked = {TOKEN: bytes.fromhex(token), NONCE1: os.urandom(8), CLIENT_RECIPIENT_ID: b""}
        self.socket.send(bytes([0x44, METHODS["POST"], 0, 0]) + b"post" + option(11, b"authz-info") + option(1, b"\x13") + b"\xff" + cbor(self.asked))

    def made(self):
        """Itself, with the context that the answer makes."""
        heard = self.heard(PATIENCE)
        answer = Message(heard[0]) if heard else fail("the post of a token isn't answered")
        if answer.code != CREATED:
            fail(f"the post of a token is answered {spelled(answer.code)}")
        self.context = made_context(self.secret, self.algorithm, self.asked, members(answer.payload))
        return self

    @staticmethod
    def partial_iv(number):
        return number.to_bytes(max(1, (number.bit_length() + 7) // 8), "big")

    def sealed(self, number, method, path, payload=b""):
        """The datagram of this request."""
        text, delta = bytes([METHODS[method]]), 11
        for segment in path.strip("/").split("/"):
            text, delta = text + option(delta, segment.encode()), 0
        if payload:
            text += b"\xff" + payload
        partial_iv = self.partial_iv(number)
        value = bytes([0x08 | len(partial_iv)]) + partial_iv + self.context.client_id
        header = bytes([0x44, METHODS["POST"]]) + (number % 65535 + 1).to_bytes(2, "big") + number.to_bytes(4, "big")
        return header + option(OSCORE, value) + b"\xff" + self.context.seal(partial_iv, text)

    def opened(self, datagram):
        """Which request a datagram answers, and the answer as it was before it was protected."""
        message = Message(datagram)
        number = int.from_bytes(message.token, "big")
        if OSCORE in message.options:
            text = self.context.open("server", self.partial_iv(number), message.payload)
            message = Message(b"\x40" + text[:1] + b"\0\0" + text[1:])
        return number, message

    def heard(self, seconds=0):
        """The datagrams that wait, once one does; none, where none comes for so long, or nobody listens."""
        found = []
        if select.select([self.socket], [], [], seconds)[0]:
            while True:
                try:
                    found.append(self.socket.recv(2048))
                except ConnectionRefusedError:
                    # That nobody listens is told once, before what waits.
                    pass
                except BlockingIOError:
                    break
        return found
