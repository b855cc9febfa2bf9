#!/usr/bin/env python3
"""A resource server of aiocoap, with cbor2 and cryptography: it takes tokens at authz-info (RFC 9203), and serves what `osc client` doesn't understand.

    resources.py KEY PORT FOLDER [unknown]

It listens on 127.0.0.1, and keeps a folder for each context in FOLDER. /short has the text `hi`, which a PUT changes; /long has 2,000 bytes, which go out in
blocks (RFC 7959). With the last word a new context doesn't know which numbers came before, as after a crash. Then its first request is answered by a 4.01 with
Echo (RFC 8613 appendix B.1.2)."""
import asyncio
import json
import os
import sys

import aiocoap
from aiocoap import resource
from aiocoap.oscore_sitewrapper import OscoreSiteWrapper
from cbor2 import CBORTag, dumps, loads
from cryptography.hazmat.primitives.ciphers.aead import AESCCM

TOKEN, NONCE1, NONCE2, CLIENT_ID, SERVER_ID = 1, 40, 42, 43, 44  # RFC 9200 section 8.10, RFC 9203 section 4
CNF, OSC, SECRET, SALT = 8, 4, 2, 5  # RFC 8747 section 3.1, RFC 9203 section 9.3
ALGORITHMS = {10: "AES-CCM-16-64-128", 30: "AES-CCM-16-128-128"}


def claims_of(key, token):
    """What the issuer sealed under the key: in tags or without."""
    token = loads(token)
    while isinstance(token, CBORTag):
        token = token.value
    protected, unprotected, sealed = token
    return loads(AESCCM(key, tag_length=8).decrypt(unprotected[5], sealed, dumps(["Encrypt0", protected, b""])))


class AuthzInfo(resource.Resource):
    def __init__(self, key, folder, unknown, credentials):
        super().__init__()
        self.key, self.folder, self.unknown, self.credentials, self.made = key, folder, unknown, credentials, 0

    async def render_post(self, request):
        asked = loads(request.payload)
        granted = claims_of(self.key, asked[TOKEN])[CNF][OSC]
        self.made += 1
        name, nonce = f"made{self.made}", os.urandom(8)
        own_id = bytes([128 + self.made % 128])
        os.mkdir(f"{self.folder}/{name}")
        with open(f"{self.folder}/{name}/settings.json", "w", encoding="utf-8") as it:
            settings = {
                "algorithm": ALGORITHMS[granted.get(4, 10)],
                "secret_hex": granted[SECRET].hex(),
                "salt_hex": b"".join(map(dumps, [granted.get(SALT, b""), asked[NONCE1], nonce])).hex(),
                "sender-id_hex": asked[CLIENT_ID].hex(),
                "recipient-id_hex": own_id.hex(),
            }
            json.dump(settings, it)
        if self.unknown:
            with open(f"{self.folder}/{name}/sequence.json", "w", encoding="utf-8") as it:
                json.dump({"next-to-send": 0, "received": "unknown"}, it)
        self.credentials.load_from_dict({f":{name}": {"oscore": {"basedir": f"{self.folder}/{name}"}}})
        return aiocoap.Message(code=aiocoap.CREATED, payload=dumps({NONCE2: nonce, SERVER_ID: own_id}), content_format=19)


class Text(resource.Resource):
    def __init__(self, text):
        super().__init__()
        self.text = text

    async def render_get(self, request):
        return aiocoap.Message(payload=self.text)

    async def render_put(self, request):
        self.text = request.payload
        return aiocoap.Message(code=aiocoap.CHANGED)


async def main(key, port, folder, unknown):
    site = resource.Site()
    server = await aiocoap.Context.create_server_context(None, bind=("127.0.0.1", port), transports=["udp6"])
    server.serversite = OscoreSiteWrapper(site, server.server_credentials)
    site.add_resource(["authz-info"], AuthzInfo(key, folder, unknown, server.server_credentials))
    site.add_resource(["short"], Text(b"hi"))
    site.add_resource(["long"], Text(b"a" * 2000))
    await asyncio.get_running_loop().create_future()


if __name__ == "__main__":
    asyncio.run(main(bytes.fromhex(sys.argv[1]), int(sys.argv[2]), sys.argv[3], sys.argv[4:] == ["unknown"]))
