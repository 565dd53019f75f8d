"""Frames to a placement and back, as docs/frames.md has them, and what examples/placement/run does with them."""
import itertools
import socket
import struct
import sys
import threading
import time

WORDS = {16: "lock", 17: "update", 18: "unlock", 19: "idle", 20: "refused", 21: "gone"}


def name(text):
    return bytes([len(text)]) + text.encode()


def member(node, boot):
    return name("default") + name(node) + struct.pack(">Q", boot)


def host(node, boot):
    address = struct.pack(">IH", 0x7F000001, 3500)
    return member(node, boot) + name("shop") + address + bytes([1]) + name("counter")


def frame(kind, fields):
    return struct.pack(">IB", 1 + len(fields), kind) + fields


def register(node, boot):
    return frame(1, host(node, boot))


def beat(node, boot):
    return frame(2, member(node, boot))


def ack(node, boot, stage, version):
    return frame(3, member(node, boot) + bytes([stage]) + struct.pack(">Q", version))


def leave(node, boot):
    return frame(4, member(node, boot))


def whole(link, count):
    found = b""
    while len(found) < count:
        more = link.recv(count - len(found))
        if not more:
            raise ConnectionError("the connection ended")
        found += more
    return found


def ask(link, message):
    """Sends a frame, and returns the word of the answer with its number, if it has one."""
    link.sendall(message)
    (length,) = struct.unpack(">I", whole(link, 4))
    answer = whole(link, length)
    word = WORDS[answer[0]]
    if word in ("lock", "update", "unlock"):
        return word, struct.unpack(">Q", answer[1:9])[0]
    if word == "refused":
        return word, answer[1]
    return word, None


def dial(port):
    for _ in range(500):
        try:
            return socket.create_connection(("127.0.0.1", port), timeout=10)
        except OSError:
            time.sleep(0.02)
    sys.exit("nobody listens")


def round_on(link, node, boot):
    """Registers a node and goes through a round, as soon as there is one for it: a round that runs may have to wait for a
    member that is gone, until it wasn't heard for ten seconds. Returns the words of the answers, and the version."""
    word, version = ask(link, register(node, boot))
    while word == "idle":
        time.sleep(0.1)
        word, version = ask(link, beat(node, boot))
    words = [word]
    for stage in (1, 2, 3):
        words.append(ask(link, ack(node, boot, stage, version))[0])
    return words, version


def beat_together(port, node, boot, links):
    """Holds so many connections open at once, and beats on each. Returns how many answers came."""
    held = [dial(port) for _ in range(links)]
    answers = []

    def one(link):
        answers.append(ask(link, beat(node, boot))[0])

    threads = [threading.Thread(target=one, args=(link,)) for link in held]
    for thread in threads:
        thread.start()
    for thread in threads:
        thread.join()
    for link in held:
        link.close()
    return len(answers)


def join_until_cut(port, first):
    """Lets node after node join and leave until the server is gone. Returns the greatest version that was told."""
    greatest, boot = 0, first
    try:
        with dial(port) as link:
            while True:
                greatest = max(greatest, round_on(link, "n", boot)[1])
                ask(link, leave("n", boot))
                boot += 1
    except OSError:
        return greatest


def join_and_leave(port, links, flag):
    """Lets nodes join and leave on so many connections until the server is gone, and makes a file of this name once each
    connection has done so a few times. Returns the nodes whose last frame was answered, each as a word, its node and its
    boot: it has joined or it has left."""
    told = {}
    busy = threading.Barrier(links, action=lambda: open(flag, "w", encoding="utf-8").close())

    def say(link, node, word, boot):
        told.pop(node, None)
        message = register(node, boot) if word == "joined" else leave(node, boot)
        if ask(link, message)[0] != "refused":
            told[node] = (word, node, boot)

    def one(part):
        try:
            with dial(port) as link:
                for turn in itertools.count():
                    if turn == 12:
                        busy.wait(60)
                    boot, number = turn // 5 + 1, turn % 5
                    comes_back = number % 3 > 0
                    if boot == 2 or boot > 2 and comes_back:
                        say(link, f"m{part}-{number}", "left", boot - 1)
                    if boot == 1 or comes_back:
                        say(link, f"m{part}-{number}", "joined", boot)
        except (OSError, threading.BrokenBarrierError):
            return

    threads = [threading.Thread(target=one, args=(part,)) for part in range(links)]
    for thread in threads:
        thread.start()
    for thread in threads:
        thread.join()
    return sorted(told.values())


def forgotten(port, file):
    """Of the nodes in a file, how many are members that have left, or aren't though they have joined."""
    wrong = 0
    with dial(port) as link, open(file, encoding="utf-8") as lines:
        for line in lines:
            word, node, boot = line.split()
            if (ask(link, beat(node, int(boot))) == ("refused", 3)) != (word == "left"):
                wrong += 1
    return wrong


def main():
    command, port = sys.argv[1], int(sys.argv[2])
    if command == "round":
        with dial(port) as link:
            words, version = round_on(link, sys.argv[3], int(sys.argv[4]))
        print(" ".join(words), version)
    elif command == "leave":
        with dial(port) as link:
            print(ask(link, leave(sys.argv[3], int(sys.argv[4])))[0])
    elif command == "together":
        print(beat_together(port, "a", 1, 64))
    elif command == "half":
        link = dial(port)
        link.sendall(beat("a", 1)[:7])
        time.sleep(float(sys.argv[3]))
    elif command == "load":
        print(join_until_cut(port, int(sys.argv[3])))
    elif command == "churn":
        for word, node, boot in join_and_leave(port, int(sys.argv[3]), sys.argv[4]):
            print(word, node, boot)
    elif command == "forgotten":
        print(forgotten(port, sys.argv[3]))


if __name__ == "__main__":
    main()
