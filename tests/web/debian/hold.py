"""Holds so many connections to port 443 for so many seconds, none of which says a word: `hold.py COUNT SECONDS`.

One that is ended is begun again. Prints how many were begun.
"""
import asyncio
import contextlib
import resource
import sys


async def hold(count, seconds):
    begun = 0

    async def one():
        nonlocal begun
        while True:
            with contextlib.suppress(OSError):
                reader, writer = await asyncio.open_connection("127.0.0.1", 443)
                begun += 1
                await reader.read(1)
                writer.close()
            await asyncio.sleep(0.1)

    with contextlib.suppress(asyncio.TimeoutError):
        await asyncio.wait_for(asyncio.gather(*(one() for _ in range(count))), seconds)
    print(begun)


if __name__ == "__main__":
    hard = resource.getrlimit(resource.RLIMIT_NOFILE)[1]
    resource.setrlimit(resource.RLIMIT_NOFILE, (hard, hard))
    asyncio.run(hold(int(sys.argv[1]), float(sys.argv[2])))
