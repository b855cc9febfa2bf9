#!/usr/bin/env python3
"""One request under a security context that `osc context --form json` wrote, without an id context: its OSCORE is that of bench/oscore.py.

    asking.py CONTEXT PORT METHOD PATH

prints the code and the payload of the answer. It keeps no number: a context is for one call."""
import json
import pathlib
import socket
import sys

sys.path.insert(0, str(pathlib.Path(__file__).resolve().parent.parent.parent / "bench"))
sys.dont_write_bytecode = True

from oscore import METHODS, OSCORE, Context, Message, option, spelled  # noqa: E402


def main(made, port, method, path):
    context = Context(
        bytes.fromhex(made["master_secret"]),
        made["aead_algorithm"],
        bytes.fromhex(made["master_salt"]),
        bytes.fromhex(made["sender_id"]),
        bytes.fromhex(made["recipient_id"]),
    )
    partial_iv = made["sender_sequence_number"].to_bytes(1, "big")
    text = bytes([METHODS[method]]) + option(11, path.strip("/").encode())
    value = bytes([0x09]) + partial_iv + context.client_id
    link = socket.socket(socket.AF_INET, socket.SOCK_DGRAM)
    link.settimeout(20)
    link.connect(("127.0.0.1", port))
    link.send(bytes([0x44, METHODS["POST"], 0, 1]) + b"made" + option(OSCORE, value) + b"\xff" + context.seal(partial_iv, text))
    text = context.open("server", partial_iv, Message(link.recv(2048)).payload)
    answer = Message(b"\x40" + text[:1] + b"\0\0" + text[1:])
    print(spelled(answer.code), answer.payload.decode())


with open(sys.argv[1], encoding="utf-8") as it:
    main(json.load(it), int(sys.argv[2]), *sys.argv[3:])
