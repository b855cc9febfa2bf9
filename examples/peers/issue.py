#!/usr/bin/env python3
"""An issuer of tokens that isn't `osc token`: Python's cbor2 and cryptography (Debian's python3-cbor2 and python3-cryptography).

    issue.py KEY AUDIENCE ID SECRET DAYS PATH=METHOD+METHOD ..

prints the token in hexadecimal. A number beside KEY, which is 16 bytes, is drawn for each token: the IV."""
import os
import sys
import time

from cbor2 import CBORTag, dumps
from cryptography.hazmat.primitives.ciphers.aead import AESCCM

BITS = {"GET": 1, "POST": 2, "PUT": 4, "DELETE": 8}  # RFC 9237 section 3
BITS["SUB"] = 16  # all paths below, at `osc server`; RFC 9237 means FETCH by it
AUD, EXP, CNF, SCOPE, OSC = 3, 4, 8, 9, 4  # RFC 8392 section 4, RFC 8747 section 3.1, RFC 9200 section 5.10.1, RFC 9203 section 9.3


def token(key, audience, its_id, secret, days, grants):
    claims = {
        AUD: audience,
        EXP: int(time.time()) + days * 86400,
        CNF: {OSC: {0: its_id, 2: secret}},  # id and master secret; 4 is the algorithm, 5 the salt, 6 the id context (RFC 9203 section 3.2.1)
        SCOPE: dumps([[path, sum(BITS[method] for method in methods)] for path, methods in grants]),
    }
    protected, iv = dumps({1: 10}), os.urandom(13)  # AES-CCM-16-64-128 (RFC 9053 section 4.2)
    sealed = AESCCM(key, tag_length=8).encrypt(iv, dumps(claims), dumps(["Encrypt0", protected, b""]))
    return dumps(CBORTag(16, [protected, {5: iv}, sealed]))


if __name__ == "__main__":
    key, audience, its_id, secret, days, *granted = sys.argv[1:]
    grants = [(path, methods.split("+")) for path, methods in (it.split("=") for it in granted)]
    print(token(bytes.fromhex(key), audience, bytes.fromhex(its_id), bytes.fromhex(secret), int(days), grants).hex())
