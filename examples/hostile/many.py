"""An application for a great many actors of type `counter`: it answers each call at once and each deactivation after a
millisecond, and keeps its counts in memory alone.

    python3 many.py PORT SIDECAR_PORT NAME

`GET /closed` is answered with how many actors were deactivated, `GET /closing` with what these calls took: their number,
the seconds of all together, and the moments at which the first came and the last was answered."""
import asyncio
import collections
import json
import sys
import time

PORT, NAME = int(sys.argv[1]), sys.argv[3]
CONFIG = {"entities": ["counter"], "actorIdleTimeout": "1h", "drainOngoingCallTimeout": "2s"}
CLOSING_TAKES = 0.001    # seconds

counts = collections.Counter()
closed = 0
closing = {"calls": 0, "seconds": 0.0, "from": 0.0, "until": 0.0}


def response(value):
    body = json.dumps(value).encode()
    return b"HTTP/1.1 200 OK\r\nContent-Type: application/json\r\nContent-Length: %d\r\n\r\n%s" % (len(body), body)


def note_closing(came, answered):
    closing["from"] = min(closing["from"] or came, came)
    closing["until"] = answered
    closing["calls"] += 1
    closing["seconds"] += answered - came


class Connection(asyncio.Protocol):
    """A connection with one request, whose body doesn't matter."""

    def connection_made(self, transport):
        self.transport, self.head = transport, b""

    def data_received(self, data):
        self.head += data
        if b"\r\n\r\n" in self.head:
            method, path, _ = self.head.split(b" ", 2)
            self.head = b""
            self.answer(method, path.decode())

    def answer(self, method, path):
        if method == b"DELETE":
            asyncio.get_running_loop().call_later(CLOSING_TAKES, self.close_actor, time.monotonic())
        elif method == b"PUT":
            actor = path.split("/")[3]
            counts[actor] += 1
            self.reply({"count": counts[actor], "at": NAME})
        else:
            self.reply({"/closed": closed, "/closing": closing}.get(path, CONFIG))

    def close_actor(self, came):
        global closed
        closed += 1
        self.reply({})
        note_closing(came, time.monotonic())

    def reply(self, value):
        self.transport.write(response(value))
        self.transport.close()


async def serve():
    server = await asyncio.get_running_loop().create_server(Connection, "127.0.0.1", PORT, backlog=1024)
    await server.serve_forever()


asyncio.run(serve())
