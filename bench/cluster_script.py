"""Makes a long script of a cluster, always the same one.

Sixteen members of four parts each serve 10,000 actors of two types. Most lines call an actor at its owner, or end its
turn. Now and then a member goes (it is lost, it leaves, or the placement no longer hears it) or its node boots again;
then comes a round of the placement, in which actors drain, are deactivated, and begin anew at their next owner.
Meanwhile calls wait, and some are told that their actor is elsewhere.

The maker keeps what the lines have to name: the number of the last message and of the last call, the owner of each
actor by its own ring, and which turns are open and which calls wait at which member.
"""

import bisect
import collections
import hashlib

NODES = [f"n{number}" for number in range(16)]
PARTS = 4
DEPTH = 4
DRAIN_MS = 5_000
SILENT_MS = 10_000
OUTSTANDING = 400  # calls that aren't ended yet, while no round is under way
WORK = 40_000  # lines between two rounds
PLAIN_ACTORS = 8_000  # of the type counter, one turn at a time
CHAINED_ACTORS = 2_000  # of the type cart, with reentrancy
WAYS = ("lost", "leaves", "silent")  # how a member goes


def place_of(text):
    """A place on the ring: the first 8 bytes of the text's SHA-256."""
    return int.from_bytes(hashlib.sha256(text.encode()).digest()[:8], "big")


class Draws:
    """Numbers that look drawn, the same ones for each seed in every version of Python."""

    def __init__(self, seed):
        self.state = seed

    def below(self, bound):
        self.state = (self.state * 6364136223846793005 + 1442695040888963407) % 2**64
        return (self.state >> 33) % bound

    def choice(self, items):
        return items[self.below(len(items))]


class Ring:
    """Owners of actors among nodes that serve all types: the node of the least point at or after the actor's place."""

    def __init__(self, nodes):
        self.points = sorted((place_of(f"{node}#{number}"), node) for node in nodes for number in range(100))

    def owner(self, place):
        found = bisect.bisect_left(self.points, (place, ""))
        return self.points[found if found < len(self.points) else 0][1]


class Actor:
    def __init__(self, kind, number):
        self.kind = kind
        self.id = str(number)
        self.key = f"{kind}/{number}"
        self.place = place_of(self.id)
        self.part = self.place % PARTS
        self.depth = DEPTH if kind == "cart" else 0


class Cell:
    """What a member has of an actor: its open turns and the calls in its queue, each with its chain."""

    def __init__(self, actor):
        self.actor = actor
        self.open = {}
        self.queue = {}
        self.active = False


class Member:
    def __init__(self, node, boot):
        self.node = node
        self.name = f"{node}/{boot}"
        self.cells = {}  # by key
        self.opened = False

    def foreign(self, owner):
        """The cells of other members by the present ring, in the order of deactivation within each part."""
        cells = [cell for cell in self.cells.values() if owner[cell.actor.key] != self.node]
        return sorted(cells, key=lambda cell: (cell.actor.part, cell.actor.kind, cell.actor.id))


class Maker:
    def __init__(self, lines, seed):
        self.wanted = lines
        self.draws = Draws(seed)
        self.lines = []
        self.messages = 0
        self.calls = 0
        self.boots = 0
        self.version = 0
        self.moment = 0
        self.members = {}  # by node
        self.actors = [Actor("counter", number) for number in range(PLAIN_ACTORS)]
        self.actors += [Actor("cart", number) for number in range(CHAINED_ACTORS)]
        self.owner = {}  # node by key
        self.outstanding = collections.deque()  # calls with their member and cell

    # Lines.

    def say(self, line):
        self.lines.append(line + "\n")

    def send(self, line):
        """A line that adds a request, which is then delivered to the placement."""
        self.say(line)
        self.messages += 1
        self.say(f"to {self.messages}")
        self.messages += 1

    def pass_time(self, milliseconds):
        self.moment += milliseconds
        self.say(f"at {self.moment}")

    # Calls.

    def call(self, member, actor, chain=None, least=None):
        """A call at a member that takes it: it begins or waits, as its cell says."""
        self.calls += 1
        words = f"call {self.calls} {member.name} {actor.key}"
        words += "" if least is None else f" least {least}"
        words += "" if chain is None else f" chain {chain}"
        self.say(words)
        cell = member.cells.setdefault(actor.key, Cell(actor))
        chain = chain or self.calls  # a made chain is like no other
        if actor.depth and chain in cell.open.values():
            if len(cell.open) == actor.depth:
                return  # refused
            cell.open[self.calls] = chain
        elif member.opened and not cell.open:
            cell.active = True
            cell.open[self.calls] = chain
        else:
            cell.queue[self.calls] = chain
        self.outstanding.append((self.calls, member, cell))

    def call_elsewhere(self, actor):
        """A call at a member that doesn't own the actor: it tells the owner, which is then asked."""
        owner = self.owner[actor.key]
        other = self.draws.choice([node for node in self.members if node != owner])
        self.calls += 1
        self.say(f"call {self.calls} {self.members[other].name} {actor.key}")
        self.call(self.members[owner], actor, None, self.version)

    def begin_next(self, cell):
        if cell.queue and not cell.open:
            call = next(iter(cell.queue))
            cell.open[call] = cell.queue.pop(call)
            cell.active = True

    def end(self, member, cell, call):
        self.say(f"end {call}")
        del cell.open[call]
        if member.opened:
            self.begin_next(cell)

    def end_oldest(self):
        """Ends the call that was asked first, where its turn is open; one that still waits goes behind the others."""
        call, member, cell = self.outstanding.popleft()
        if call in cell.open:
            self.end(member, cell, call)
        elif call in cell.queue:
            self.say(f"poll {call}")
            self.outstanding.append((call, member, cell))

    # Work between rounds.

    def call_some(self):
        actor = self.draws.choice(self.actors)
        chance = self.draws.below(100)
        if chance < 2:
            self.call_elsewhere(actor)
            return
        chain = None
        if actor.depth and chance < 70:
            chain = f"c{self.calls}"
        member = self.members[self.owner[actor.key]]
        self.call(member, actor, chain)
        if chain is not None:
            # The chain goes on to another actor, and comes back.
            other = self.actors[PLAIN_ACTORS + self.draws.below(CHAINED_ACTORS)]
            self.call(self.members[self.owner[other.key]], other, chain)
            self.call(member, actor, chain)

    def work(self):
        until = min(self.wanted, len(self.lines) + WORK)
        while len(self.lines) < until:
            self.call_some()
            while len(self.outstanding) > OUTSTANDING:
                self.end_oldest()

    # Members come and go.

    def boot(self, node):
        self.boots += 1
        self.members[node] = Member(node, self.boots)
        self.send(f"boot {node} counter,cart")

    def stop(self, node, way):
        """Stops a member; then it is lost, it leaves, or the placement's tick drops it, since it was silent."""
        member = self.members.pop(node)
        for part in range(PARTS):
            self.say(f"stop {member.name} {part}")
        if way == "lost":
            self.say(f"lost {member.name}")
        elif way == "leaves":
            self.send(f"leave {member.name}")
        else:
            self.pass_time(SILENT_MS)
            for other in self.members.values():
                self.send(f"beat {other.name}")
            self.say("ptick")
        kept = [entry for entry in self.outstanding if entry[1] is not member]
        gone = [call for call, at, _ in self.outstanding if at is member]
        for call in gone[:10]:
            self.say(f"poll {call}")
        self.outstanding = collections.deque(kept)

    # Rounds.

    def round(self):
        """All members go through the three phases of a round, one after the other in each."""
        self.version += 1
        ring = Ring(self.members)
        moved = []
        for phase in ("lock", "update", "unlock"):
            if phase == "update":
                self.owner = {actor.key: ring.owner(actor.place) for actor in self.actors}
            for member in self.members.values():
                self.send(f"beat {member.name}")
                for part in range(PARTS):
                    self.say(f"part {self.messages} {part}")
                if phase == "lock":
                    member.opened = False
                    self.call_locked(member)
                elif phase == "update":
                    self.drain(member)
                else:
                    moved += self.open(member)
                self.send(f"collect {member.name}")
        for call, actor, chain in moved:
            self.say(f"poll {call}")
            chain = chain if isinstance(chain, str) else None
            self.call(self.members[self.owner[actor.key]], actor, chain, self.version)
        gone = {call for call, _, _ in moved}
        self.outstanding = collections.deque(entry for entry in self.outstanding if entry[0] not in gone)

    def call_locked(self, member):
        """In a locked part calls wait, but for those of a chain whose turn is open."""
        active = [cell for cell in member.cells.values() if cell.active]
        for _ in range(min(8, len(active))):
            self.call(member, self.draws.choice(active).actor)
        chained = [cell for cell in active if cell.actor.depth and cell.open]
        for cell in chained[:2]:
            chain = next(iter(cell.open.values()))
            if isinstance(chain, str):
                self.call(member, cell.actor, chain)

    def drain(self, member):
        """Ends the turns of actors that move, most by their end, some by the drain time, and deactivates them."""
        cells = [cell for cell in member.foreign(self.owner) if cell.active]
        late = 0
        for cell in cells:
            for call in list(cell.open):
                late += 1
                if late > 3:
                    self.end(member, cell, call)
        if late:
            self.pass_time(DRAIN_MS)
            self.say(f"tick {member.name}")
            for cell in cells:
                for call in cell.open:
                    self.say(f"end {call}")
                cell.open.clear()
        for cell in cells:
            self.say(f"closing {member.name} {cell.actor.part}")
            self.say(f"closed {member.name} {cell.actor.key}")
            cell.active = False
            if not cell.queue:
                del member.cells[cell.actor.key]

    def open(self, member):
        """The member's parts open: calls that waited begin; gives those that have moved, which are asked for then."""
        member.opened = True
        moved = []
        for cell in member.foreign(self.owner):
            moved += [(call, cell.actor, chain) for call, chain in cell.queue.items()]
            del member.cells[cell.actor.key]
        for cell in member.cells.values():
            self.begin_next(cell)
        return moved

    # The whole.

    def make(self):
        self.say(f"cluster {PARTS}")
        self.say(f"reentrant cart {DEPTH}")
        self.say(f"drain {DRAIN_MS}")
        self.boot(NODES[0])
        self.round()
        for node in NODES[1:]:
            self.boot(node)
            self.round()
        change = 0
        while len(self.lines) < self.wanted:
            self.work()
            node = NODES[change * 5 % len(NODES)]  # each in turn, not in order of boot
            self.stop(node, WAYS[change % len(WAYS)])
            self.round()
            self.work()
            self.boot(node)
            self.round()
            change += 1
        return self.lines[: self.wanted]


def cluster_lines(lines, seed=1):
    """The lines of the script, so many."""
    return Maker(lines, seed).make()
