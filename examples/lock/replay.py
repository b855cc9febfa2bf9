#!/usr/bin/env python3
"""Stands between a client and a lock, and sends a request again that went by.

    replay.py LISTEN_PORT LOCK_PORT

It passes datagrams on until a protected request was answered. Then it sends the bytes of that request once more, from a socket of its own and with another
message ID, and prints the code of what comes back."""
import select
import socket
import sys

POST = 0x02


def code_of(datagram):
    return f"{datagram[1] >> 5}.{datagram[1] & 31:02d}"


def passed(inner, outer):
    """The second request of the client, once it was answered: the first one posts the token."""
    requests, client = [], None
    while ready := select.select([inner, outer], [], [], 20)[0]:
        for it in ready:
            datagram, peer = it.recvfrom(2048)
            if it is inner:
                client = peer
                if datagram not in requests and datagram[1] == POST:
                    requests.append(datagram)
                outer.send(datagram)
            else:
                inner.sendto(datagram, client)
                if len(requests) == 2 and datagram[2:4] == requests[1][2:4]:
                    return requests[1]
    sys.exit("replay: no protected request was answered")


def main():
    listen, lock = map(int, sys.argv[1:])
    inner = socket.socket(socket.AF_INET, socket.SOCK_DGRAM)
    inner.bind(("127.0.0.1", listen))
    outer = socket.socket(socket.AF_INET, socket.SOCK_DGRAM)
    outer.connect(("127.0.0.1", lock))
    print("ready", flush=True)
    request = passed(inner, outer)
    other = (int.from_bytes(request[2:4], "big") ^ 0x5555).to_bytes(2, "big")
    again = socket.socket(socket.AF_INET, socket.SOCK_DGRAM)
    again.connect(("127.0.0.1", lock))
    again.settimeout(10)
    again.send(request[:2] + other + request[4:])
    print(code_of(again.recv(2048)))


main()
