"""Four hundred clients at once, while the server is busy for some seconds."""
import asyncio
import base64
import collections
import socket

from deployment.asking import home, trusting
from deployment.stage import HOST, PASSWORD

CLIENTS = 400
BUSY = 7


def request(name):
    secret = base64.b64encode(f"{name}:{PASSWORD}".encode()).decode()
    fields = (f"Host: {HOST}", f"Authorization: Basic {secret}", "Connection: close")
    return "\r\n".join([f"GET /xcap{home(name)} HTTP/1.1", *fields, "", ""]).encode()


async def ask(stage, name, context):
    """The status of a reply, or what came in its place."""
    try:
        to = asyncio.open_connection("127.0.0.1", stage.port, ssl=context, server_hostname=HOST)
        reader, writer = await to
        writer.write(request(name))
        line = await asyncio.wait_for(reader.readline(), 60)
        writer.close()
        return line.split()[1].decode() if line else "nothing"
    except (OSError, asyncio.TimeoutError) as fault:
        return type(fault).__name__


async def ask_at_once(stage, names):
    context = trusting(stage)
    return await asyncio.gather(*(ask(stage, name, context) for name in names))


def crowd(stage, port):
    """How often each status came. A silent connection to its own port holds the server first."""
    names = [f"user{n % 20}" for n in range(CLIENTS)]
    with socket.create_connection(("127.0.0.1", port)) as silent:
        silent.sendall(b"GET ")
        holder = asyncio.new_event_loop()
        asked = holder.create_task(ask_at_once(stage, names))
        holder.call_later(BUSY, silent.close)
        statuses = holder.run_until_complete(asked)
        holder.close()
    return collections.Counter(statuses)


def shown(counts):
    return ", ".join(f"{count} times {status}" for status, count in sorted(counts.items()))


