"""The counter of examples/counter as an application of Flask.

    python3 app.py PORT SIDECAR_PORT
"""
import json
import sys
from urllib.parse import quote
from urllib.request import Request, urlopen

from flask import Flask, request

PORT, SIDECAR = sys.argv[1:3]
app = Flask(__name__)


def ask(method, path, body=None):
    """What the sidecar answers about the state of a counter."""
    data = None if body is None else json.dumps(body).encode()
    question = Request(f"http://127.0.0.1:{SIDECAR}/v1.0/actors/counter/{path}", data, method=method)
    with urlopen(question, timeout=30) as reply:
        return json.loads(reply.read() or "null")


@app.get("/dapr/config")
def config():
    return {"entities": ["counter"], "actorIdleTimeout": "10s"}


@app.put("/actors/counter/<actor>/method/<path:method>")
def call(actor, method):
    request.get_data()
    actor = quote(actor, safe="")
    count = ask("GET", f"{actor}/state/count") or 0
    if method == "increment" or method.startswith("remind/"):    # no other turn of this actor comes between
        count += 1
        ask("PUT", f"{actor}/state", [{"operation": "upsert", "request": {"key": "count", "value": count}}])
    return {"count": count}


@app.delete("/actors/counter/<actor>")
def deactivate(actor):
    return ""


app.run(port=int(PORT), threaded=True)
