"""Calls of the actors of examples/counter/app.py, through a sidecar. It needs Python's standard library alone.

    python3 caller.py together PORT          holds 64 connections open, makes a call on each, and prints how many were answered
    python3 caller.py half PORT SECONDS      sends half a request and stays
    python3 caller.py load PORT BUSY KILLED  counts with twenty actors at once. It makes the file BUSY once each was answered a
                                             few times, and goes on until each was answered again behind the making of the
                                             file KILLED, or for two minutes. Then it prints of how many the count fell short of
                                             one that was told before, and how many weren't answered again."""
import http.client
import json
import os
import socket
import sys
import threading
import time

HEAD = "POST /v1.0/actors/counter/"


def dial(port):
    for _ in range(100):
        try:
            return socket.create_connection(("127.0.0.1", port), timeout=30)
        except OSError:
            time.sleep(0.1)
    sys.exit("nobody listens")


def call(link, actor, method):
    """The answer to a call on a connection, if there is one."""
    link.sendall(f"{HEAD}{actor}/method/{method} HTTP/1.1\r\nHost: sidecar\r\nContent-Length: 0\r\n\r\n".encode())
    reply = http.client.HTTPResponse(link)
    reply.begin()
    body = reply.read()
    return json.loads(body) if reply.status == 200 else None


def together(port):
    held = [dial(port) for _ in range(64)]
    answers = []

    def one(place):
        answers.append(call(held[place], f"n{place % 20 + 1}", "look"))

    threads = [threading.Thread(target=one, args=(place,)) for place in range(64)]
    for thread in threads:
        thread.start()
    for thread in threads:
        thread.join()
    for link in held:
        link.close()
    return sum(answer is not None for answer in answers)


def load(port, busy, killed):
    ends = time.monotonic() + 120
    warm = threading.Barrier(20, action=lambda: open(busy, "w", encoding="utf-8").close())
    short, silent = [], []

    def count(actor):
        """The count that one call is told; None if it fails."""
        try:
            with dial(port) as link:
                answer = call(link, actor, "increment")
        except (OSError, http.client.HTTPException, ValueError):
            return None
        return answer and answer["count"]

    def one(actor):
        told, times, after = 0, 0, 0
        while after < 3 and time.monotonic() < ends:
            again = os.path.exists(killed)
            now = count(actor)
            if now is None:
                time.sleep(0.2)
                continue
            if now <= told:
                short.append(actor)
            told, times, after = now, times + 1, after + again
            if times == 3:
                warm.wait(120)
        if after < 3:
            silent.append(actor)

    threads = [threading.Thread(target=one, args=(f"n{number}",)) for number in range(1, 21)]
    for thread in threads:
        thread.start()
    for thread in threads:
        thread.join()
    return f"{len(short)} short, {len(silent)} silent"


def main():
    command, port = sys.argv[1], int(sys.argv[2])
    if command == "together":
        print(together(port))
    elif command == "half":
        with dial(port) as link:
            link.sendall(f"{HEAD}one/meth".encode())
            time.sleep(float(sys.argv[3]))
    elif command == "load":
        print(load(port, sys.argv[3], sys.argv[4]))


if __name__ == "__main__":
    main()
