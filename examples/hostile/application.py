"""The application of examples/counter, with three more methods and with room for many connections at once.

    python3 application.py PORT SIDECAR_PORT NAME

    hold/SECONDS    reads the count, waits so long, and writes a count that is one higher
    busy/SECONDS    asks for the count ten times a second, for so long
    long/BYTES      adds one to the count, and answers with so many bytes
"""
import json
import pathlib
import sys
import time

sys.path.insert(0, str(pathlib.Path(__file__).resolve().parent.parent / "counter"))
import app as counter    # noqa: E402

called_by_default = counter.called


def hold(actor, seconds):
    number = counter.read(actor, "count") + 1
    time.sleep(seconds)
    counter.write(actor, "count", number)
    return {"count": number, "at": counter.NAME}


def busy(actor, seconds):
    ends = time.monotonic() + seconds
    while time.monotonic() < ends:
        counter.read(actor, "count")
        time.sleep(0.1)
    return {"at": counter.NAME}


def long(actor, length):
    value = {"count": counter.add_one(actor, "count"), "at": counter.NAME, "rest": ""}
    value["rest"] = "." * (length - len(json.dumps(value)))
    return value


def called(actor, method):
    word, _, how_much = method.partition("/")
    if word == "hold":
        return hold(actor, float(how_much))
    if word == "busy":
        return busy(actor, float(how_much))
    if word == "long":
        return long(actor, int(how_much))
    return called_by_default(actor, method)


counter.called = called
counter.ThreadingHTTPServer.request_queue_size = 1024
counter.serve()
