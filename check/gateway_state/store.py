"""The store: FIFO queues by docs/QUEUES.md, a function of one list of entries."""
import copy
import itertools
from dataclasses import dataclass, field
from typing import NamedTuple

SECOND, MINUTE, HOUR = 1_000, 60_000, 3_600_000
WINDOW = 5 * MINUTE             # how long a deduplication id counts


class Ask(NamedTuple):
    kind: str
    queue: tuple
    args: tuple = ()
    by: tuple = ("gateway",)    # for whom; the store doesn't see it
    pool: str = "ordinary"
    client: int = None


class Entry(NamedTuple):
    moment: int
    client: int
    number: int
    ask: Ask


@dataclass
class Message:
    group: str
    body: dict
    handed: int = 0
    at: int = 0
    until: int = 0


@dataclass
class Queue:
    incarnation: int
    accepted: int = 0
    messages: dict = field(default_factory=dict)


@dataclass
class State:
    """What the store's bytes say of queues that live, and of names that were removed: when, and at which incarnation."""
    queues: dict = field(default_factory=dict)
    removed: dict = field(default_factory=dict)

    def copy(self):
        queues = {name: Queue(it.incarnation, it.accepted, {number: copy.copy(message) for number, message in it.messages.items()})
                  for name, it in self.queues.items()}
        return State(queues, dict(self.removed))

    def messages(self, queue):
        return self.queues[queue].messages if queue in self.queues else {}


def offer(messages, now, size):
    """The numbers of the messages that a receive hands out."""
    busy = {message.group for message in messages.values() if now < message.until}
    groups = {}
    for number, message in messages.items():
        if message.group not in busy:
            groups.setdefault(message.group, []).append(number)
    return list(itertools.islice(itertools.chain.from_iterable(groups.values()), size))


class Store:
    """The queues by docs/QUEUES.md, as far as the gateway asks for them."""

    def __init__(self):
        self.now, self.state, self.clients, self.ids = 0, State(), {}, {}

    def apply(self, entry):
        self.now = max(self.now, entry.moment)
        last, reply = self.clients.get(entry.client, (-1, None))
        if entry.number < last:
            return ("refused", "StaleNumber")
        if entry.number > last:
            reply = self.do(entry.ask)
            self.clients[entry.client] = (entry.number, reply)
        return reply

    def do(self, ask):
        if ask.kind == "create":
            return self.create(ask.queue)
        queue = self.state.queues.get(ask.queue)
        if queue is None:
            return ("refused", "QueueDoesNotExist")
        return getattr(self, ask.kind)(ask.queue, queue, *ask.args)

    def create(self, name):
        at, incarnation = self.state.removed.get(name, (-MINUTE, 0))
        if name not in self.state.queues:
            if self.now < at + MINUTE:
                return ("refused", "QueueDeletedRecently")
            self.state.removed.pop(name, None)
            self.state.queues[name], self.ids[name] = Queue(incarnation + 1), {}
        return ("created", self.state.queues[name].incarnation)

    def remove(self, name, queue):
        del self.state.queues[name], self.ids[name]
        self.state.removed[name] = (self.now, queue.incarnation)
        return ("removed",)

    def send(self, name, queue, group, dedup, body):
        at, number = self.ids[name].get(dedup, (-WINDOW, None))
        if self.now < at + WINDOW:
            return ("sent", number)
        queue.accepted += 1
        queue.messages[queue.accepted] = Message(group, body)
        self.ids[name][dedup] = (self.now, queue.accepted)
        return ("sent", queue.accepted)

    def receive(self, _, queue, size, timeout):
        handed = []
        for number in offer(queue.messages, self.now, size):
            message = queue.messages[number]
            message.handed, message.at, message.until = message.handed + 1, self.now, self.now + timeout
            handed.append(((queue.incarnation, number, message.handed), message.group, message.body))
        return ("received", handed)

    def delete(self, _, queue, receipt):
        incarnation, number, ordinal = receipt
        message = queue.messages.get(number)
        if incarnation != queue.incarnation or not 1 <= number <= queue.accepted:
            return ("refused", "ReceiptHandleIsInvalid")
        if message is None:
            return ("deleted", False)
        if not 1 <= ordinal <= message.handed:
            return ("refused", "ReceiptHandleIsInvalid")
        if ordinal == message.handed:
            del queue.messages[number]
        return ("deleted", ordinal == message.handed)

    def change(self, _, queue, receipt, timeout):
        incarnation, number, ordinal = receipt
        message = queue.messages.get(number)
        if incarnation != queue.incarnation or not 1 <= number <= queue.accepted:
            return ("refused", "ReceiptHandleIsInvalid")
        if message is None:
            return ("refused", "MessageNotInflight")
        if ordinal != message.handed or not message.handed:
            return ("refused", "ReceiptHandleIsInvalid")
        if self.now >= message.until:
            return ("refused", "MessageNotInflight")
        if self.now + timeout > message.at + 12 * HOUR:
            return ("refused", "VisibilityBeyondLimit")
        message.until = self.now + timeout
        return ("changed",)
