"""What the trials beside this file share: a cluster of `actors` on free ports in a temporary folder, calls of its actors
that go on meanwhile, and how a finding is printed. It needs Python's standard library alone.

The program is out/actors, which is built where it is missing, or the one that ACTORS_PROGRAM names."""
import collections
import contextlib
import http.client
import importlib.util
import itertools
import json
import os
import pathlib
import random
import resource
import shutil
import signal
import socket
import subprocess
import sys
import tempfile
import threading
import time

HERE = pathlib.Path(__file__).resolve().parent
TOP = HERE.parent.parent
PROGRAM = os.environ.get("ACTORS_PROGRAM") or str(TOP / "out" / "actors")
LONGEST_TRIAL = 118    # seconds
PATIENCE = 2.0    # seconds by which a call may be slower than is usual


def client_of(example):
    """The client of another example, as a module: it has the frames of its server."""
    spec = importlib.util.spec_from_file_location(f"{example}_client", TOP / "examples" / example / "client.py")
    module = importlib.util.module_from_spec(spec)
    spec.loader.exec_module(module)
    return module


placement_frames = client_of("placement")
store_frames = client_of("store")


class Findings:
    """What a trial has found, one line each. Its status is 0 if nothing was wrong."""

    def __init__(self):
        self.status = 0

    def expect(self, holds, text):
        print(f"{'ok' if holds else 'WRONG'}: {text}", flush=True)
        if not holds:
            self.status = 1

    def tell(self, word, text):
        print(f"{word}: {text}", flush=True)


def run_trial(trial):
    """Runs a trial, a function of its findings, and ends with their status, within two minutes."""
    def give_up(*_):
        findings.expect(False, f"the trial wasn't over after {LONGEST_TRIAL} seconds")
        sys.exit(1)

    findings = Findings()
    signal.signal(signal.SIGALRM, give_up)
    for number in (signal.SIGTERM, signal.SIGHUP, signal.SIGINT):
        signal.signal(number, lambda *_: sys.exit(1))
    most = resource.getrlimit(resource.RLIMIT_NOFILE)[1]
    resource.setrlimit(resource.RLIMIT_NOFILE, (most, most))
    # This builds the program where it is missing.
    subprocess.run([TOP / "actors", "replay"], stdin=subprocess.DEVNULL, check=True)
    signal.alarm(LONGEST_TRIAL)
    trial(findings)
    sys.exit(findings.status)


def made_library(folder, source):
    """A library made of a C file of this folder, for a process to load before all others; None without a compiler."""
    compiler = shutil.which("cc")
    if not compiler:
        return None
    library = (folder / source).with_suffix(".so")
    subprocess.run([compiler, "-O1", "-shared", "-fPIC", "-o", library, HERE / source], check=True)
    return library


def await_so(holds, seconds):
    """Waits until something holds, for so long at most. Returns the seconds that it took, or None."""
    began = time.monotonic()
    while time.monotonic() - began < seconds:
        if holds():
            return time.monotonic() - began
        time.sleep(0.05)
    return None


def free_ports(count):
    """Ports where nobody listens. The system gives none of them to a caller while a server is away."""
    found = []
    while len(found) < count:
        port = random.SystemRandom().randrange(15_000, 32_000)
        with socket.socket() as link, contextlib.suppress(OSError):
            link.bind(("127.0.0.1", port))
            if port not in found:
                found.append(port)
    return found


def listens(port):
    try:
        socket.create_connection(("127.0.0.1", port), timeout=5).close()
        return True
    except OSError:
        return False


def at(port):
    return f"127.0.0.1:{port}"


class Process:
    """A process of the cluster, which can be started again. `before` is shell that runs first in it. What it prints goes to
    its output, and a server's log to the file of that name with `.log`."""

    def __init__(self, name, words, output, before=":"):
        self.name, self.words, self.output, self.before = name, [str(word) for word in words], output, before
        self.child = None

    def start(self, *more):
        with open(self.output, "ab") as output, open(self.output.with_suffix(".log"), "ab") as log:
            words = ["sh", "-c", f'{self.before}; exec "$@"', "sh", *self.words, *more]
            self.child = subprocess.Popen(words, stdin=subprocess.DEVNULL, stdout=output, stderr=log, start_new_session=True)

    def send(self, number):
        if self.child and self.child.poll() is None:
            self.child.send_signal(number)

    def kill(self):
        """Kills it, and what it has started."""
        if self.child and self.child.poll() is None:
            os.killpg(self.child.pid, signal.SIGKILL)
            self.child.wait()

    def status(self):
        """The status with which it has ended, None while it runs."""
        return self.child.poll()

    def await_end(self, seconds):
        """Its status, None if it still runs after so long."""
        with contextlib.suppress(subprocess.TimeoutExpired):
            return self.child.wait(seconds)
        return None


class Folder:
    """A temporary folder, and the processes that work in it. At the end they are killed, and it is removed."""

    def __init__(self):
        self.path = pathlib.Path(tempfile.mkdtemp(prefix="actors-"))
        self.processes = []

    def process(self, name, words, before=":"):
        made = Process(name, words, self.path / f"{name.replace(' ', '-')}.output", before)
        self.processes.append(made)
        return made

    def server(self, command, port, journal, before=":", more=()):
        """A placement or a store that has to be started."""
        words = [PROGRAM, command, "--journal", journal, "--listen", at(port), *more]
        return self.process(f"the {command}", words, before)

    def __enter__(self):
        return self

    def __exit__(self, *_):
        for process in self.processes:
            process.send(signal.SIGCONT)
            process.kill()
        shutil.rmtree(self.path, ignore_errors=True)


Host = collections.namedtuple("Host", "node app listen peer application sidecar")


class Cluster(Folder):
    """A placement with HTTP, a store, and hosts that are named by one letter each: a sidecar and its application, a script of
    this folder."""

    def __init__(self, nodes="ab", before=":", application="application.py"):
        super().__init__()
        self.application = application
        self.numbers = itertools.count(1)
        self.frames_port, self.http_port, self.store_port, *rest = free_ports(3 + 3 * len(nodes))
        self.placement = self.server("placement", self.frames_port, self.path / "placement", before,
                                     ["--http", at(self.http_port)])
        self.store = self.server("store", self.store_port, self.path / "store", before)
        self.hosts = {node: self.host(node, rest[3 * place:3 * place + 3], before) for place, node in enumerate(nodes)}

    def host(self, node, ports, before):
        app, listen, peer = ports
        application = self.process(f"the application of {node}",
                                   [sys.executable, "-B", HERE / self.application, app, listen, node])
        words = [PROGRAM, "sidecar", "--node", node, "--app-id", "shop", "--app", at(app), "--listen", at(listen),
                 "--peer", at(peer), "--placement", at(self.frames_port), "--store", at(self.store_port)]
        return Host(node, app, listen, peer, application, self.process(f"the sidecar of {node}", words, before))

    def start(self, nodes=None):
        """Starts the servers and these hosts, all if they aren't named, and waits until each host answers. If that is cut off,
        nothing stays behind."""
        try:
            self.start_each(nodes or self.hosts)
        except BaseException:
            self.__exit__()
            raise
        return self

    def start_each(self, nodes):
        self.placement.start("--new")
        self.store.start("--new")
        for port in (self.frames_port, self.store_port):
            await_so(lambda port=port: listens(port), 10)
        for node in nodes:
            self.start_host(node)
        if answers_again(self.listens(nodes), ["first"], 30) is None:
            sys.exit("the cluster doesn't answer")

    def start_host(self, node):
        host = self.hosts[node]
        host.application.start()
        await_so(lambda: listens(host.app), 10)
        host.sidecar.start()

    def listens(self, nodes=None):
        return [self.hosts[node].listen for node in nodes or self.hosts]

    def ended(self):
        """The processes that were started and have ended, each with its status."""
        return [f"{it.name} with {it.status()}" for it in self.processes if it.child and it.status() is not None]

    def judge(self, findings, when):
        """Expects that none has ended."""
        ended = self.ended()
        findings.expect(not ended, f"{when}: {', '.join(ended) or 'no process'} has ended")

    def ports(self):
        """Each port of the cluster, with a name and a test whether a new connection there is served."""
        host = self.hosts["a"]
        look = "/v1.0/actors/counter/first/method/look"
        return [
            ("the placement's port", self.frames_port, lambda: is_beat_answered(self.frames_port)),
            ("the placement's port of HTTP", self.http_port,
             lambda: http_status(self.http_port, "GET", "/placement/state") == 200),
            ("the store's port", self.store_port, lambda: is_read_answered(self.store_port)),
            ("a sidecar's port", host.listen, lambda: http_status(host.listen, "PUT", look) == 200),
            ("a sidecar's port for peers", host.peer,
             lambda: http_status(host.peer, "PUT", look, {"Actors-Least": "0", "Actors-Call": f"prober/1 0 {next(self.numbers)}"}) in (200, 421)),
        ]


def is_beat_answered(port):
    """Whether a placement answers a stranger's Beat."""
    return is_answered(port, placement_frames.ask, placement_frames.beat("stranger", 1), ("refused", 3))


def is_read_answered(port):
    """Whether a store answers that a key isn't there."""
    return is_answered(port, store_frames.ask, store_frames.get("nobody", "key"), "not there")


def is_answered(port, ask, frame, answer):
    try:
        with socket.create_connection(("127.0.0.1", port), timeout=5) as link:
            return ask(link, frame) == answer
    except OSError:
        return False


def http_status(port, method, path, fields=None):
    link = http.client.HTTPConnection("127.0.0.1", port, timeout=5)
    try:
        link.request(method, path, headers=fields or {})
        return link.getresponse().status
    except (OSError, http.client.HTTPException):
        return None
    finally:
        link.close()


# The answer to a call: at which host, with which count, or else the fault.
Answer = collections.namedtuple("Answer", "count host fault")


def call(port, actor, method="increment", timeout=10.0):
    """Calls a counter through a sidecar."""
    link = http.client.HTTPConnection("127.0.0.1", port, timeout=timeout)
    try:
        link.request("POST", f"/v1.0/actors/counter/{actor}/method/{method}")
        reply = link.getresponse()
        value = json.loads(reply.read() or b"{}")
    except (OSError, http.client.HTTPException, ValueError) as fault:
        return Answer(None, None, type(fault).__name__)
    finally:
        link.close()
    if reply.status != 200:
        return Answer(None, None, value.get("errorCode", f"status {reply.status}"))
    return Answer(value.get("count"), value.get("at"), None)


class Counts:
    """The counts that calls of actors were told. One has to be above all those that were told before its call began, and
    none is told twice."""

    def __init__(self):
        self.lock = threading.Lock()
        self.told = collections.defaultdict(set)
        self.faults = []

    def increment(self, port, actor, method="increment", timeout=10.0):
        with self.lock:
            before = max(self.told[actor], default=0)
        answer = call(port, actor, method, timeout)
        if answer.count is not None:
            self.hear(actor, before, answer.count)
        return answer

    def hear(self, actor, before, count):
        with self.lock:
            if count <= before:
                self.faults.append(f"{actor} fell from {before} to {count}")
            elif count in self.told[actor]:
                self.faults.append(f"{actor} was told {count} twice")
            self.told[actor].add(count)

    def total(self):
        with self.lock:
            return sum(len(told) for told in self.told.values())

    def judge(self, findings, when):
        faults = f": {', '.join(self.faults[:5])}" if self.faults else ""
        findings.expect(not self.faults, f"{when}: of {self.total()} acknowledged counts {len(self.faults) or 'none'} fell or "
                                         f"came twice{faults}")


# A call that a thread has made: when it began, how long it took, and its fault, if it failed.
Made = collections.namedtuple("Made", "began took fault")


class Calls:
    """Calls that count with some actors, in two threads for each of the sidecars' ports, until they are stopped. For three
    seconds at first nothing else happens, and what the slowest call takes then is usual here."""

    def __init__(self, ports, actors):
        self.counts = Counts()
        self.made, self.waiting = [], {}
        self.over = threading.Event()
        self.threads = []
        for place, port in enumerate(ports * 2):
            order = actors[place * 3:] + actors[:place * 3]
            thread = threading.Thread(target=self.go_on, args=(place, port, order), daemon=True)
            self.threads.append(thread)
        for thread in self.threads:
            thread.start()
        time.sleep(3)
        self.usual = max((it.took for it in self.so_far(0)), default=0)

    def go_on(self, place, port, actors):
        for actor in itertools.cycle(actors):
            if self.over.wait(0.1):
                return
            began = self.waiting[place] = time.monotonic()
            answer = self.counts.increment(port, actor)
            self.made.append(Made(began, time.monotonic() - began, answer.fault))
            self.waiting[place] = None

    def so_far(self, since):
        """The calls that began since this moment; those too that still wait for an answer."""
        now = time.monotonic()
        waiting = [Made(began, now - began, None) for began in list(self.waiting.values()) if began]
        return [it for it in self.made + waiting if it.began >= since]

    def stop(self):
        self.over.set()
        ends = time.monotonic() + 5
        for thread in self.threads:
            thread.join(max(0.0, ends - time.monotonic()))

    def judge(self, findings, when, since):
        """Expects that each call that began since this moment was answered, and not much later than is usual here."""
        made = self.so_far(since)
        faults = collections.Counter(it.fault for it in made if it.fault)
        failed = "".join(f", {count} with {fault}" for fault, count in faults.items())
        slowest = max((it.took for it in made), default=0)
        findings.expect(made and not faults and slowest <= self.usual + PATIENCE,
                        f"{when}: {len(made)} calls, {sum(faults.values())} failed{failed}, the slowest took {slowest:.2f} s "
                        f"({self.usual:.2f} s before)")


def answers_again(ports, actors, seconds, counts=None):
    """Calls each actor through each of the sidecars' ports until all of them have answered, for so long at most. Returns the
    seconds that it took, or None."""
    began = time.monotonic()
    counts = counts or Counts()
    late = []

    def one(port, actor):
        while counts.increment(port, actor, timeout=max(0.1, began + seconds - time.monotonic())).count is None:
            if time.monotonic() - began > seconds:
                late.append(actor)
                return
            time.sleep(0.2)

    threads = [threading.Thread(target=one, args=(port, actor), daemon=True) for port in ports for actor in actors]
    for thread in threads:
        thread.start()
    for thread in threads:
        thread.join()
    return None if late else time.monotonic() - began
