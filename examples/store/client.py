"""Commands to a store and its answers, as docs/frames.md has them, and what examples/store/run does with them."""
import os
import socket
import struct
import sys
import threading
import time


def name(text):
    return bytes([len(text)]) + text.encode()


def blob(data):
    return struct.pack(">I", len(data)) + data


def text(data):
    return struct.pack(">H", len(data)) + data.encode()


def node(word):
    return name("default") + name(word)


def stamp(word, boot, part, number):
    return node(word) + struct.pack(">QBQ", boot, part, number)


def actor(word):
    return name("default") + name("counter") + name(word)


def frame(kind, fields):
    return struct.pack(">IB", 1 + len(fields), kind) + fields


def boot(word):
    return frame(32, node(word))


def upsert(key, value):
    return bytes([1]) + text(key) + blob(value.encode()) + bytes([0])


def transaction(whose, word, operations, epoch=1):
    return frame(40, struct.pack(">Q", epoch) + unfenced(whose, word, operations))


def unfenced(whose, word, operations):
    """The fields of a transaction without an epoch, whose kind is 33; a store refuses it."""
    return whose + actor(word) + struct.pack(">H", len(operations)) + b"".join(operations)


def get(word, key):
    return frame(34, actor(word) + text(key))


def whole(link, count):
    found = b""
    while len(found) < count:
        more = link.recv(count - len(found))
        if not more:
            raise ConnectionError("the connection ended")
        found += more
    return found


def ask(link, message):
    """Sends a command, and returns the words of its answer."""
    link.sendall(message)
    (length,) = struct.unpack(">I", whole(link, 4))
    answer = whole(link, length)
    kind, fields = answer[0], answer[1:]
    if kind == 48:
        return "booted %d" % struct.unpack(">Q", fields)
    if kind == 49:
        return "done"
    if kind == 50:
        return "value " + fields[4:].decode()
    if kind == 51:
        return "not there"
    if kind == 55:
        return "refused %d" % fields[0]
    return "kind %d" % kind


def dial(port):
    for _ in range(500):
        try:
            return socket.create_connection(("127.0.0.1", port), timeout=10)
        except OSError:
            time.sleep(0.02)
    sys.exit("nobody listens")


def load(port, links):
    """Sets key after key on so many connections until the server is gone. Returns the keys that were acknowledged."""
    with dial(port) as link:
        drawn = int(ask(link, boot("load")).split()[1])
    told = [[] for _ in range(links)]

    def one(part):
        number = 1
        try:
            with dial(port) as link:
                while True:
                    key = "%d-%d-%d" % (drawn, part, number)
                    if ask(link, transaction(stamp("load", drawn, part, number), "i", [upsert(key, key)], 3)) != "done":
                        return
                    told[part].append(key)
                    number += 1
        except OSError:
            return

    threads = [threading.Thread(target=one, args=(part,)) for part in range(links)]
    for thread in threads:
        thread.start()
    for thread in threads:
        thread.join()
    return [key for keys in told for key in keys]


def boot_together(port, word, links):
    """Holds so many connections open at once, and draws a boot on each. Returns how many different ones were answered."""
    held = [dial(port) for _ in range(links)]
    answers = []

    def one(link):
        answers.append(ask(link, boot(word)))

    threads = [threading.Thread(target=one, args=(link,)) for link in held]
    for thread in threads:
        thread.start()
    for thread in threads:
        thread.join()
    for link in held:
        link.close()
    return len({answer for answer in answers if answer.startswith("booted ")})


def lost(port, file):
    """How many of the keys in a file don't have their own text as their value."""
    missing = 0
    with dial(port) as link, open(file, encoding="utf-8") as keys:
        for key in keys.read().split():
            if ask(link, get("i", key)) != "value " + key:
                missing += 1
    return missing


def write_old(path):
    """Writes a store's file of the first format, in which no space stands: node `old` has booted and set a value."""
    writer, moment = name("old"), bytes(8)
    sets = writer + struct.pack(">QBQ", 1, 0, 1) + name("counter") + name("i") + struct.pack(">H", 1) + upsert("old", "kept")
    with open(path, "wb") as file:
        file.write(b"\x01ACTJRN1")
        for payload in (moment + bytes([32]) + writer, moment + bytes([33]) + sets):
            file.write(b"\x01" + blob(payload))
        file.write(b"\x00")


def main():
    if sys.argv[1] == "old":
        write_old(sys.argv[2])
        return
    command, port = sys.argv[1], int(sys.argv[2])
    if command == "load":
        print("".join(key + os.linesep for key in load(port, int(sys.argv[3]))), end="")
        return
    if command == "lost":
        print(lost(port, sys.argv[3]))
        return
    if command == "together":
        print(boot_together(port, "together", 64))
        return
    if command == "half":
        link = dial(port)
        link.sendall(boot("half")[:7])
        time.sleep(float(sys.argv[3]))
        return
    with dial(port) as link:
        if command == "boot":
            print(ask(link, boot(sys.argv[3])))
        elif command == "get":
            print(ask(link, get("i", sys.argv[3])))
        elif command == "set":
            word, drawn, number, epoch, key, value = sys.argv[3:9]
            whose = stamp(word, int(drawn), 0, int(number))
            print(ask(link, transaction(whose, "i", [upsert(key, value)], int(epoch))), ask(link, get("i", key)))
        elif command == "plain":
            word, drawn, number, key, value = sys.argv[3:8]
            whose = stamp(word, int(drawn), 0, int(number))
            print(ask(link, frame(33, unfenced(whose, "i", [upsert(key, value)]))), ask(link, get("i", key)))


if __name__ == "__main__":
    main()
