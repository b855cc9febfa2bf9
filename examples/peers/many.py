#!/usr/bin/env python3
"""Many POSTs of aiocoap under one security context, one after the other.

    many.py CREDENTIALS COUNT URI

POSTs no bytes COUNT times to URI, and prints how many answers were 2.01 or 2.04, and how many were none in time."""
import asyncio
import json
import sys

import aiocoap
from aiocoap.error import NetworkError


async def main(credentials, count, uri):
    client = await aiocoap.Context.create_client_context()
    with open(credentials, encoding="utf-8") as it:
        client.client_credentials.load_from_dict(json.load(it))
    done = lost = 0
    for _ in range(count):
        try:
            answer = await client.request(aiocoap.Message(code=aiocoap.POST, uri=uri)).response
            done += answer.code in (aiocoap.CREATED, aiocoap.CHANGED)
        except NetworkError:
            lost += 1
    await client.shutdown()
    print(f"{done} done, {lost} lost")


asyncio.run(main(sys.argv[1], int(sys.argv[2]), sys.argv[3]))
