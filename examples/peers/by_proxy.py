#!/usr/bin/env python3
"""One request of aiocoap through a forward proxy, under a security context.

    by_proxy.py CREDENTIALS PROXY METHOD URI [TEXT]

prints the code and the payload of the answer. aiocoap 0.4.14 leaves Proxy-Scheme and Uri-Port out of what it protects, so that a proxy doesn't know that the
request is to be forwarded (RFC 7252 section 5.7.2): they are added here."""
import asyncio
import json
import sys

import aiocoap
from aiocoap.oscore import FilesystemSecurityContext
from aiocoap.proxy.client import ProxyForwarder


class ByProxy(FilesystemSecurityContext):
    def _split_message(self, message, request_id):
        outer, plaintext = super()._split_message(message, request_id)
        outer.opt.proxy_scheme, outer.opt.uri_port = message.opt.proxy_scheme, message.opt.uri_port
        return outer, plaintext


async def main(credentials, proxy, method, uri, text=""):
    client = await aiocoap.Context.create_client_context()
    with open(credentials, encoding="utf-8") as it:
        for pattern, named in json.load(it).items():
            client.client_credentials[pattern] = ByProxy(named["oscore"]["basedir"])
    request = aiocoap.Message(code=getattr(aiocoap, method), uri=uri, payload=text.encode())
    answer = await ProxyForwarder(proxy, client).request(request).response
    await client.shutdown()
    print(f"{answer.code} {answer.payload.decode()}".strip())


asyncio.run(main(*sys.argv[1:]))
