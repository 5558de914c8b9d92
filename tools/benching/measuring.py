"""What a server makes of a request."""
import time

from benching.asking import Client

# How many requests are made for two counts of instructions, whose difference gives the cost of one.
FEW, MORE = 2, 6


def begin(client, request):
    """Makes what a request asks for, and the request once."""
    for before in request.before:
        client.ask(before)
    status = client.ask(request.bytes)
    if not 200 <= status < 300:
        raise RuntimeError(f"{request.what}: {status}")


def measured(server, request, seconds):
    """How many requests were answered in a second, and the processor seconds for each."""
    with Client(server.port) as client:
        begin(client, request)
        made, spent, began = 0, server.spent(), time.monotonic()
        while time.monotonic() - began < seconds:
            client.ask(request.bytes)
            made += 1
        took = time.monotonic() - began
        return made / took, (server.spent() - spent) / made


def counted(server_type, folder, program, request):
    """The instructions of the server for a request."""
    counts = []
    for made in (FEW, MORE):
        with server_type(folder, program, counts=True) as server, Client(server.port) as client:
            begin(client, request)
            for _ in range(made):
                client.ask(request.bytes)
        counts.append(server.instructions())
        for file in server.folder.glob("counted.*"):
            file.unlink()
    return (counts[1] - counts[0]) / (MORE - FEW)
