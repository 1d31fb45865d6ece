"""A run by a seed: the store, the gateway beside it, clients, and faults."""
import random
from collections import deque
from dataclasses import dataclass

from gateway_state.gateway import BOOK, DEAD_LETTERS, Gateway
from gateway_state.oracle import Oracle
from gateway_state.store import MINUTE, SECOND, Store

PATIENCE = 20 * SECOND          # how long a client repeats a request
ROUNDS = 3_000                  # in so many rounds without faults all must be at rest
KINDS = {"send": 36, "receive": 36, "delete": 24, "change": 3, "start_task": 2, "create": 4, "purge": .7, "remove": .7}


@dataclass(eq=False)
class Request:
    """What a client asks the gateway for, and repeats until it is answered."""
    kind: str
    number: int
    name: str
    until: int
    large: bool = False
    delay: int = 0
    group: str = None
    size: int = 1
    timeout: int = 0
    handle: tuple = None
    life: int = None            # the gateway that has it
    is_done: bool = False
    promised: bool = False      # its receipt is of the last handing that a client or a task asked for


class World:
    def __init__(self, seed, rules, traces=False):
        self.random, self.rules = random.Random(seed), rules
        self.time, self.store, self.oracle = 100_000_000, Store(), Oracle(self)
        self.entries, self.places = [], {}
        self.shadow, self.shadow_at, self.settled_to = Store(), 0, 0         # a replay of what the gateway has settled
        self.stream, self.answers = deque(), deque()                        # asks and answers on their way
        self.front, self.lingering = [], []                                 # asks of earlier gateways
        self.is_full, self.faults, self.crashes, self.comparisons = False, False, 0, 0
        self.requests, self.handles, self.made = [], [], 0
        self.trace = [] if traces else None
        # Each seed has a bent of its own.
        self.kinds = {kind: weight * self.random.choice([.3, 1, 3]) for kind, weight in KINDS.items()}
        self.ends_behind, self.ends_soon = self.random.choice([0, .4]), False   # crashes behind the answer to a deletion
        self.retention = self.random.choice([10 * MINUTE, 100 * MINUTE])
        self.fault_rate, self.taken = self.random.choice([.005, .01, .03]), self.random.choice([.1, .25])
        # In some, a queue goes, and its number is used again.
        self.comes_and_goes = self.random.random() < .3
        self.gateway = Gateway(self, 0)

    def log(self, text, keys=None):
        if self.trace is not None:
            self.trace.append((self.time, text, keys))

    def hurt(self, kind, key):
        self.oracle.hurt(kind, key)

    # -- the store

    def apply(self, entry):
        """The store takes an entry."""
        ask, clients = entry.ask, self.store.clients
        is_fresh = entry.number > clients.get(entry.client, (-1, None))[0]
        before = dict(self.store.state.messages(ask.queue)) if ask.kind in ("delete", "remove") else {}
        reply = self.store.apply(entry)
        self.entries.append(entry)
        if is_fresh:
            self.places[entry.client, entry.number] = len(self.entries)
            self.oracle.takes(self.store.now, ask, reply, before)
        self.log(f"{'' if is_fresh else 'again '}{entry.client}/{entry.number} {said(ask)} -> {told(reply)}", keys_of(ask, reply, before))
        return reply

    def take(self, most):
        """The store takes some of the asks that are on their way."""
        for _ in range(most):
            if not self.stream:
                return
            it = self.stream[0]
            if self.is_full and it.entry.ask.kind == "send" and it.entry.ask.queue != BOOK:
                self.is_full = False
                self.log(f"no room for {said(it.entry.ask)}")
                if self.rules.refuses_stream:
                    self.stream.clear()
                    self.gateway.broken = True
                    return
                self.stream.popleft()
                self.answers.append((it, ("refused", "OverLimit")))
            else:
                self.stream.popleft()
                self.answers.append((it, self.apply(it.entry)))

    def take_late(self):
        """The store takes some of the asks of an earlier gateway, or they come to nothing."""
        stream = self.random.choice(self.lingering)
        for _ in range(self.random.randint(1, 4)):
            entry = stream.popleft().entry
            if self.rules.bounds_stamps and entry.moment < self.store.now - MINUTE:
                stream.clear()
            else:
                self.apply(entry)
            if not stream:
                break
        if not stream or self.random.random() < .1:
            self.lingering.remove(stream)

    def read(self, most):
        """The gateway reads some of the answers."""
        for _ in range(most):
            if not self.answers:
                return
            it, reply = self.answers.popleft()
            if self.faults and self.random.random() < .03:
                self.log(f"the answer to {it.entry.client}/{it.entry.number} is lost")
            elif reply == ("refused", "StaleNumber"):
                self.crash()
            else:
                self.gateway.take(it, reply)

    # -- what the gateway tells the world

    def settled(self, it):
        self.settled_to = max(self.settled_to, self.places.get((it.entry.client, it.entry.number), 0))

    def has_read(self):
        self.settled_to = len(self.entries)
        self.take_front()
        self.log(f"gateway {self.gateway.life} has read the store")

    def answer(self, request, result, messages=(), key=None, id=None):
        if request.is_done:
            return
        if self.faults and self.random.random() < .1:
            request.life = None
            self.log(f"the answer to request {request.number} is lost", [key] if key else [])
            return
        request.is_done = True
        self.requests.remove(request)
        if result == "done" and request.kind == "send":
            self.oracle.is_sent(key, id)
            self.log(f"request {request.number} is answered: sent", [key])
        if result == "done" and request.kind == "delete":
            self.oracle.is_deleted(request)
            self.ends_soon = self.faults and self.random.random() < self.ends_behind
            self.log(f"request {request.number} is answered: deleted", [request.handle[2]["key"]])
        for queue, receipt, body, told_id in messages:
            self.oracle.is_handed(request.name, body, told_id)
            self.log(f"request {request.number} is answered: handed out by {receipt}", [body["key"]])
            if self.random.random() < .8:
                self.handles.append((request.name, (queue, receipt, body)))

    # -- clients

    def work(self):
        kind = self.random.choices(list(KINDS), self.kinds.values())[0]
        self.request(kind, self.random.choice(["orders", "dead", "dead" if kind in ("create", "remove") else "orders"]))

    def request(self, kind, name):
        it, pick = Request(kind, self.made + 1, name, self.time + PATIENCE), self.random
        if kind == "send":
            it.large, it.delay = pick.random() < .3, pick.choice([0, 0, 5 * SECOND, MINUTE])
            it.group = pick.choice(["a", "b", f"own {it.number}"]) if not it.delay else f"own {it.number}"
        elif kind == "receive":
            it.size, it.timeout = pick.randint(1, 3), pick.choice([30 * SECOND, 30 * SECOND, 0])
        elif kind in ("delete", "change"):
            if not self.handles:
                return
            place = pick.choice([-1, pick.randrange(len(self.handles))])
            it.name, it.handle = self.handles.pop(place) if kind == "delete" else self.handles[place]
            it.timeout = pick.choice([0, MINUTE])
        elif kind == "start_task":
            it.name = DEAD_LETTERS["orders"]
        self.made += 1
        self.requests.append(it)

    def ask(self, again):
        """Clients ask the gateway, and some once more while it has their request."""
        for it in list(self.requests):
            if self.time > it.until:
                it.is_done = True
                self.requests.remove(it)
            elif self.gateway.serves and (it.life != self.gateway.life or it.kind == "send" and self.random.random() < again):
                self.log(f"request {it.number}: {it.kind} {it.name}", [it.handle[2]["key"]] if it.handle else [it.number])
                it.life = self.gateway.life
                self.gateway.serve(it)

    # -- faults

    def crash(self):
        """The gateway's memory is gone. Of what it had asked, the store has a front."""
        self.crashes += 1
        self.log(f"gateway {self.gateway.life} ends")
        self.answers.clear()
        self.take_front()
        self.front = [self.stream.popleft() for _ in range(self.random.randint(0, len(self.stream)))]
        if self.rules.reads_all:
            self.take_front()
        if self.stream and not self.rules.cuts:
            self.lingering.append(self.stream)
        self.stream = deque()
        self.time += self.random.choice([0, SECOND, MINUTE, 400 * SECOND]) if self.faults else 0
        self.gateway = Gateway(self, self.gateway.life + 1)

    def take_front(self):
        for it in self.front:
            self.apply(it.entry)
        self.front = []

    def fault(self):
        kind = self.random.random()
        if kind < .45:
            self.crash()
        elif kind < .6:
            self.log("the connection ends")
            self.gateway.broken = True
        elif kind < .75:
            self.is_full = True
        else:
            self.wait(self.random.choice([10 * SECOND, 31 * SECOND, 70 * SECOND, 400 * SECOND, 20 * MINUTE]))

    def wait(self, pause):
        self.log(f"{pause // SECOND} s pass")
        self.time += pause

    # -- a run

    def step(self):
        self.time += self.random.choice([0, 0, 1, 5, 40])
        if self.random.random() < self.fault_rate:
            self.fault()
        if self.ends_soon:
            self.ends_soon = False
            self.crash()
        kind = self.random.random()
        if kind < self.taken:
            if self.lingering and self.random.random() < .3:
                self.take_late()
            else:
                self.take(self.random.randint(1, 4))
        elif kind < .45:
            self.read(self.random.randint(1, 5))
        elif kind < .75:
            self.gateway.go(True, reconnects=.02)
        elif kind < .9:
            if len(self.requests) < 12:
                self.work()
        else:
            self.ask(again=.2)
        if self.random.random() < .05:
            self.compare()

    def compare(self):
        """The tables of the running gateway are those that a start makes of the entries that it has settled."""
        if not self.gateway.serves:
            return
        while self.shadow_at < self.settled_to:
            self.shadow.apply(self.entries[self.shadow_at])
            self.shadow_at += 1
        self.comparisons += 1
        if self.shadow.state != self.gateway.tables:
            self.hurt("another state", None)

    def rest(self):
        """Without faults, until nothing is under way."""
        self.gateway.connect()
        for _ in range(ROUNDS):
            self.time += 5
            self.ask(again=0)
            moved = self.gateway.go()
            while self.lingering:
                self.take_late()
            self.take(1_000)
            self.read(1_000)
            busy = self.gateway.open or self.gateway.held or self.requests or not self.gateway.serves
            if not moved and not busy and all(task.background for task in self.gateway.tasks):
                self.compare()
                return
        self.hurt("never at rest", None)

    def come_and_go(self, name):
        """A queue goes, and comes with its number. What clients and the store have of the first one is nothing of the second."""
        self.faults = self.is_full = False
        self.rest()
        for kind, pause in (("remove", 400 * SECOND), ("create", 0)):
            self.request(kind, name)
            self.rest()
            self.wait(pause)
        self.faults = True

    def play(self, steps):
        self.request("create", "orders")
        if self.random.random() < .8:
            self.request("create", "dead")
        self.rest()
        self.faults = True
        for step in range(steps):
            if self.comes_and_goes and step == steps // 2:
                self.come_and_go(self.random.choice(["orders", "dead"]))
            self.step()
        self.faults = self.is_full = False
        for pause in (0, 70 * SECOND, 70 * SECOND):
            self.time += pause
            self.rest()
        while self.handles:
            self.request("delete", None)
        self.rest()
        for kind, key in [(f"unfinished: {it}", None) for it in self.gateway.unfinished()]:
            self.hurt(kind, key)
        self.crash()
        self.rest()
        self.oracle.ends(self.store.state, self.gateway.names())
        return self


def said(ask):
    """An ask in a line of a trace."""
    kind, number = ask.queue
    more = ""
    if ask.kind == "send":
        body = ask.args[2]
        more = f" {'copy of ' + str(body['of']) if 'of' in body else body.get('about') or body.get('part') or ''}"
    elif ask.args:
        more = f" {ask.args}"
    return f"{ask.kind} {kind}-{number}{more} ({ask.by[0]})"


def told(reply):
    return f"received {[receipt for receipt, _, _ in reply[1]]}" if reply[0] == "received" else " ".join(str(it) for it in reply)


def keys_of(ask, reply, before):
    """The messages that an entry is about."""
    if ask.kind == "send":
        return [ask.args[2].get("key")]
    if ask.kind == "delete":
        return [before[ask.args[0][1]].body.get("key")] if ask.args[0][1] in before else []
    if ask.kind == "remove":
        return [message.body.get("key") for message in before.values()]
    return [body.get("key") for _, _, body in reply[1]] if reply[0] == "received" else []
