"""An application with one type of actor, `counter`, for a sidecar of `actors`. It needs Python's standard library alone.

    python3 app.py PORT SIDECAR_PORT NAME

The sidecar asks it by HTTP: for its configuration, for calls of its actors, for their timers and reminders, and it says
which actors are idle. A counter keeps its count as state, so it goes on at any host. The answer to a call names the
application that served it."""
import json
import sys
import urllib.error
import urllib.request
from http.server import BaseHTTPRequestHandler, ThreadingHTTPServer

PORT, SIDECAR, NAME = int(sys.argv[1]), int(sys.argv[2]), sys.argv[3]
CONFIG = {"entities": ["counter"], "actorIdleTimeout": "10s", "drainOngoingCallTimeout": "2s"}


def ask(method, path, body=None):
    """A request to the sidecar: status and body of its reply."""
    data = None if body is None else json.dumps(body).encode()
    request = urllib.request.Request(f"http://127.0.0.1:{SIDECAR}/v1.0/actors/{path}", data, method=method)
    if data is not None:
        request.add_header("Content-Type", "application/json")
    try:
        with urllib.request.urlopen(request) as reply:
            return reply.status, reply.read()
    except urllib.error.HTTPError as error:
        return error.code, error.read()


def read(actor, key):
    """A number of the actor's state, 0 if there is none. A refusal says nothing of the state, so the call fails with it."""
    status, body = ask("GET", f"counter/{actor}/state/{key}")
    if status not in (200, 204):
        raise RuntimeError(f"the state wasn't read: {status} {body}")
    return json.loads(body) if status == 200 else 0


def write(actor, key, number):
    change = [{"operation": "upsert", "request": {"key": key, "value": number}}]
    status, body = ask("PUT", f"counter/{actor}/state", change)
    if status != 204:
        raise RuntimeError(f"the state wasn't written: {status} {body}")


def add_one(actor, key):
    number = read(actor, key) + 1
    write(actor, key, number)
    return number


def called(actor, method):
    """The answer to a call. A turn has its actor alone, so that no two of them read the same number."""
    if method.startswith("remind/"):
        return add_one(actor, "reminders")
    if method.startswith("timer/"):
        return add_one(actor, "timers")
    if method == "increment":
        return {"count": add_one(actor, "count"), "at": NAME}
    if method == "look":
        return {key: read(actor, key) for key in ("count", "reminders", "timers")} | {"at": NAME}
    return None


class Handler(BaseHTTPRequestHandler):
    protocol_version = "HTTP/1.1"

    def reply(self, status, value=None):
        body = b"" if value is None else json.dumps(value).encode()
        self.close_connection = True
        self.send_response(status)
        self.send_header("Content-Type", "application/json")
        self.send_header("Content-Length", str(len(body)))
        self.send_header("Connection", "close")
        try:
            self.end_headers()
            self.wfile.write(body)
        except ConnectionError:  # the sidecar is gone
            pass

    def do_GET(self):
        self.reply(200, CONFIG) if self.path == "/dapr/config" else self.reply(404)

    def do_PUT(self):
        self.rfile.read(int(self.headers.get("Content-Length") or 0))
        words = self.path.split("?")[0].split("/", 5)
        if len(words) < 6 or words[1:3] != ["actors", "counter"] or words[4] != "method":
            return self.reply(404)
        try:
            answer = called(words[3], words[5])
        except (OSError, RuntimeError):    # the sidecar is gone, or it refused
            return self.reply(500)
        self.reply(404) if answer is None else self.reply(200, answer)

    def do_DELETE(self):
        self.reply(200)

    def log_message(self, *_):
        pass


def serve():
    ThreadingHTTPServer(("127.0.0.1", PORT), Handler).serve_forever()


if __name__ == "__main__":
    serve()
