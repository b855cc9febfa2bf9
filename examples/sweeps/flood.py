"""Floods a port of this machine for some seconds: flood.py SECONDS PORT SEED. Random bytes, altered requests, requests under a context's kid that don't
open, posts of tokens that don't open, acknowledgements, Resets and responses, from 16 ports, as fast as they can be sent. Prints how many datagrams were sent
and how many came back."""
import random
import socket
import struct
import sys
import time

seconds, port, seed = float(sys.argv[1]), int(sys.argv[2]), int(sys.argv[3])
draw = random.Random(seed)


def option(delta, value):
    """An option whose delta is below 269, with fewer than 13 bytes."""
    return (bytes([delta << 4 | len(value)]) if delta < 13 else bytes([0xd0 | len(value), delta - 13])) + value


def request(code, rest):
    """A confirmable request with a token of 4 bytes; its message ID comes later."""
    return bytes([0x44, code, 0, 0]) + draw.randbytes(4) + rest


def altered(datagram):
    """One to four changes."""
    changed = bytearray(datagram)
    for _ in range(draw.randint(1, 4)):
        at = draw.randrange(len(changed))
        what = draw.randrange(4)
        if what == 0:
            changed[at] ^= 1 << draw.randrange(8)
        elif what == 1:
            changed.insert(at, draw.randrange(256))
        elif what == 2 and len(changed) > 5:
            del changed[at]
        else:
            changed[at] = draw.randrange(256)
    return bytes(changed)


def protected():
    """A request under one of the kids that a server gives first, which nobody sealed."""
    number = draw.randbytes(draw.randint(1, 5))
    value = bytes([0x08 | len(number)]) + number + bytes([draw.randrange(4)])
    return request(2, option(9, value) + b"\xff" + draw.randbytes(draw.randint(9, 80)))


def post():
    """A token that doesn't open, with the nonce and the ID of an exchange (RFC 9203 section 4.1)."""
    nothing = draw.randbytes(80)
    token = b"\x83\x43\xa1\x01\x0a\xa1\x05\x4d" + draw.randbytes(13) + b"\x58" + bytes([len(nothing)]) + nothing
    body = b"\xa3\x01\x58" + bytes([len(token)]) + token + b"\x18\x28\x48" + draw.randbytes(8) + b"\x18\x2b\x40"
    return request(2, option(11, b"authz-info") + b"\x11\x13\xff" + body)


def settling():
    """An acknowledgement, a Reset or a response."""
    kind = draw.choice((0x60, 0x70, 0x45))
    if kind != 0x45:
        return bytes([kind, 0, 0, 0])
    token = draw.randbytes(draw.randrange(9))
    return bytes([draw.choice((0x40, 0x50, 0x60)) | len(token), 0x45, 0, 0]) + token + b"\xff" + draw.randbytes(20)


GET = option(11, b"e")
PROXIED = option(3, b"door") + option(4, b"\x16\x33") + option(4, b"e") + b"\xd4\x0fcoap"
KINDS = (
    lambda: draw.randbytes(draw.choice((4, 8, 20, 60, 400, 1200))),
    lambda: altered(request(1, draw.choice((GET, PROXIED)))),
    lambda: request(1, draw.choice((GET, PROXIED))),
    lambda: altered(protected()),
    protected,
    post,
    settling,
)

datagrams = [bytearray(draw.choice(KINDS)()) for _ in range(20000)]
sockets = []
for _ in range(16):
    it = socket.socket(socket.AF_INET, socket.SOCK_DGRAM)
    it.setblocking(False)
    it.connect(("127.0.0.1", port))
    sockets.append(it)

sent = came = 0
end = time.monotonic() + seconds
while time.monotonic() < end:
    for _ in range(200):
        datagram = draw.choice(datagrams)
        if len(datagram) >= 4:
            struct.pack_into(">H", datagram, 2, sent % 65536)
        it = sockets[sent % 16]
        try:
            it.send(datagram)
            sent += 1
        except OSError:
            # Nobody listens for a moment, or a buffer is full.
            pass
    for it in sockets:
        try:
            for _ in range(1000):
                it.recv(2048)
                came += 1
        except OSError:
            pass
print(f"port {port}: {sent} datagrams sent, {came} came back")
