#!/usr/bin/env python3
"""upstream.py ADDRESS CERTIFICATE KEY: the provider's resolver, over TLS at port 853. It answers by records.py."""

import asyncio
import contextlib
import ssl
import sys
import time

sys.dont_write_bytecode = True

from records import reply_to


async def serve(reader, writer):
    """Answers what comes over a connection, until it ends."""
    with contextlib.suppress(asyncio.IncompleteReadError, OSError):
        while True:
            query = await reader.readexactly(int.from_bytes(await reader.readexactly(2), "big"))
            reply = reply_to(query, time.time_ns() // 1_000_000)
            writer.write(len(reply).to_bytes(2, "big") + reply)
            await writer.drain()
    writer.close()


async def main():
    place, certificate, key = sys.argv[1:]
    safe = ssl.create_default_context(ssl.Purpose.CLIENT_AUTH)
    safe.load_cert_chain(certificate, key)
    server = await asyncio.start_server(serve, place, 853, ssl=safe)
    await server.serve_forever()


if __name__ == "__main__":
    asyncio.run(main())
