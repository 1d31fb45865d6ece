"""The gateway: asks in one stream, tables that follow the answers, and tasks in steps."""
import itertools
from collections import Counter, deque
from contextlib import contextmanager

from gateway_state.store import HOUR, MINUTE, SECOND, WINDOW, Ask, Entry, Message, Queue, State, offer

HIDDEN = 12 * HOUR              # for how long the gateway receives from queues of its own
PAUSE = MINUTE + WINDOW         # so long behind its end the number of a queue is free again
MOST = 1                        # so often a message is handed out before it is a dead letter
DEAD_LETTERS = {"orders": "dead"}
BOOK, NOWHERE = ("book", 0), ("nowhere", 0)
# The client numbers, each with one open ask: of copies and parts, of deletions that end a move, and of all else.
POOLS = {"ordinary": range(3), "end": range(3, 6), "begin": range(6, 11)}


def stores(number):
    """The queues of the store that belong to one of clients."""
    return [("main", number), ("delayed", number)]


def follow(queue, moment, ask, reply):
    """What a reply says of a queue."""
    if reply[0] == "sent" and reply[1] > queue.accepted:
        queue.accepted = reply[1]
        queue.messages[reply[1]] = Message(ask.args[0], ask.args[2])
    elif reply[0] == "received":
        for (_, number, ordinal), group, body in reply[1]:
            message = queue.messages.setdefault(number, Message(group, body))
            message.handed, message.at, message.until = ordinal, moment, moment + ask.args[1]
    elif reply == ("deleted", True):
        queue.messages.pop(ask.args[0][1], None)
    elif reply[0] == "changed":
        queue.messages[ask.args[0][1]].until = moment + ask.args[1]


class Open:
    """An ask whose answer isn't settled."""

    def __init__(self, ask, moment, client, number):
        self.entry = Entry(moment, client, number, ask)
        self.reply, self.settled, self.is_new = None, False, False


class Task:
    """A job in steps: each step is a function of the moment that says what to ask, or None while it has to wait."""

    def __init__(self, steps, late, until=None, background=False):
        self.steps, self.late, self.until, self.background = steps, late, until, background
        self.step, self.opens = next(steps), []


class Gateway:
    def __init__(self, world, life):
        self.world, self.rules, self.random, self.life = world, world.rules, world.random, life
        self.tables, self.serves, self.broken = State(), False, False
        self.last, self.number, self.begun = 0, life << 24, 0
        self.open, self.held = [], set()
        self.free = {pool: list(numbers) for pool, numbers in POOLS.items()}
        self.memory, self.own, self.ids, self.count, self.vain = [], {}, {}, 0, 0
        self.users, self.waits = Counter(), {}      # who has a queue's number; since when numbers that somebody had wait again
        self.tasks = []
        self.begin(self.start())

    # -- asks and answers

    def begin(self, steps, **more):
        """One more task, with how often it is late."""
        self.tasks.append(Task(steps, self.random.choice([.1, .1, .4, .9, .98]), **more))

    def clock(self):
        self.last = max(self.last, self.world.time)
        return self.last

    def go(self, may_be_late=False, reconnects=0):
        """Each task goes on, but for some that are late; says whether one could."""
        if self.broken or self.random.random() < reconnects:
            self.connect()
        moved = False
        for task in self.random.sample(self.tasks, len(self.tasks)):
            if task in self.tasks and not (may_be_late and self.random.random() < task.late):
                moved = self.run(task) or moved
        return moved

    def run(self, task):
        """Goes on with a task; says whether it could."""
        if task.opens:
            if not all(it.settled for it in task.opens):
                return False
            for it in task.opens:
                self.free[it.entry.ask.pool].append(it.entry.client)
            return self.resume(task, task.opens)
        now = self.clock()
        if task.until is not None and now > task.until and self.rules.has_deadline:
            self.tasks.remove(task)
            return True
        asks = task.step(now)
        if not asks:
            return asks is not None and self.resume(task, [])
        need = Counter(ask.pool for ask in asks)
        if any(len(self.free[pool]) < most for pool, most in need.items()):
            return False
        task.until, task.opens = None, [self.ask(ask, now) for ask in asks]
        return True

    def resume(self, task, opens):
        task.opens = []
        try:
            task.step = task.steps.send(opens)
        except StopIteration:
            self.tasks.remove(task)
        return True

    def ask(self, ask, now):
        free = self.free[ask.pool]
        client = free[self.random.randrange(len(free))] if ask.client is None else ask.client
        free.remove(client)
        self.number += 1
        it = Open(ask, now, client, self.number)
        self.open.append(it)
        if not self.broken:
            self.world.stream.append(it)
        return it

    def connect(self):
        """A new connection: what isn't answered is asked for again, in its order, with its numbers and moments."""
        self.broken = False
        self.world.stream = deque(it for it in self.open if it.reply is None)
        self.world.answers.clear()

    def take(self, it, reply):
        if it.reply is None:
            it.reply = reply
        while self.open:
            ready = [it for it in self.open if it.reply is not None]
            if not ready or self.rules.settles_in_order and ready[0] is not self.open[0]:
                return
            self.open.remove(ready[0])
            self.settle(ready[0])

    def settle(self, it):
        ask, reply, it.settled = it.entry.ask, it.reply, True
        queue = self.tables.queues.get(ask.queue)
        if reply[0] == "created":
            self.tables.removed.pop(ask.queue, None)
            self.tables.queues.setdefault(ask.queue, Queue(reply[1]))
        elif reply[0] == "removed":
            self.tables.queues.pop(ask.queue, None)
            self.tables.removed[ask.queue] = (it.entry.moment, queue.incarnation if queue else 0)
        elif queue:
            it.is_new = reply[0] == "sent" and reply[1] > queue.accepted
            follow(queue, it.entry.moment, ask, reply)
        self.world.settled(it)

    def is_asked(self, *queues):
        return any(it.entry.ask.queue in queues for it in self.open)

    # -- what the tables say

    def messages(self, queue):
        return self.tables.messages(queue)

    def book(self):
        return {message.body["about"]: message.body for message in self.messages(BOOK).values()}

    def said(self, *about):
        return self.book().get(about, {"stage": None})

    def living(self, name):
        """The number of the queue of that name, or None."""
        said = self.said("queue", name)
        return said["number"] if said["stage"] == "there" else None

    def names(self):
        return {body["number"]: about[1] for about, body in self.book().items() if about[0] == "queue" and body["stage"] == "there"}

    def marks(self):
        """The numbers of queues that are there, by their marks."""
        book = [body for about, body in self.book().items() if about[0] == "queue"]
        return {body["mark"]: body["number"] for body in book if body["stage"] == "there"}

    def mark(self, name):
        """The mark of the queue of that name, or None."""
        said = self.said("queue", name)
        return said["mark"] if said["stage"] == "there" else None

    def free_number(self, now):
        """The number that went first, where its pause is over and nobody has anything of its queue, or one above all."""
        if not self.rules.reads_names:
            self.count += 1
            return self.count
        gone = {number for kind, number in self.tables.removed if kind == "main"}
        waiting = sorted((self.gone_since(number), number) for number in gone if not self.is_there(number))
        if waiting and waiting[0][0] + PAUSE <= now:
            number = waiting[0][1]
            if not self.users[number]:
                return number
            self.waits[number] = now
        return 1 + max([0] + [number for kind, number in [*self.tables.queues, *self.tables.removed] if kind in ("main", "delayed")])

    def is_there(self, number):
        return any(queue in self.tables.queues for queue in stores(number))

    def gone_since(self, number):
        """When it went, or since when it waits again. Elsewhere an earlier gateway may have asks on their way."""
        went = [self.tables.removed[queue][0] for queue in stores(number) if queue in self.tables.removed]
        return max(*went, self.waits.get(number, 0), 0 if self.rules.cuts else self.begun)

    @contextmanager
    def using(self, number):
        """As long as somebody has it, a number isn't used again."""
        self.users[number] += 1
        try:
            yield
        finally:
            self.users[number] -= 1

    def free_body(self, now):
        """The name of a queue for a large body: one that isn't there, and wasn't a minute ago."""
        for number in itertools.count(1):
            name = ("body", number)
            at, _ = self.tables.removed.get(name, (-MINUTE, 0))
            if name not in self.tables.queues and now >= at + MINUTE and not self.is_asked(name):
                return name

    def receipt(self, queue, number):
        return (self.tables.queues[queue].incarnation, number, self.messages(queue)[number].handed)

    def mark_of(self, number):
        return next((mark for mark, it in self.marks().items() if it == number), None)

    def id_of(self, mark, queue, number, body):
        if self.rules.hashes_ids:
            return body.get("id", (mark if self.rules.marks_ids else queue[1], queue[0], number))
        return self.ids.setdefault((mark, queue, number), self.random.getrandbits(60))

    def deletion(self, queue, number, by=("gateway",), pool="ordinary"):
        return Ask("delete", queue, (self.receipt(queue, number),), by, pool)

    def leading(self, queue, now, theirs, most):
        """How many messages a receive would hand out before the first one that isn't theirs."""
        offered = offer(self.messages(queue), now, most)
        return sum(1 for _ in itertools.takewhile(lambda number: theirs(number, self.messages(queue)[number], now), offered))

    # -- steps that tasks share

    def say(self, *about, **facts):
        """One more message of the book."""
        unique = f"{self.random.getrandbits(60)}"
        yield lambda now: [Ask("send", BOOK, (unique, unique, {"about": about, "since": now, **facts}))]

    def take_turn(self, thing):
        def turn(_):
            if thing in self.held:
                return None
            self.held.add(thing)
            return []
        yield turn

    def hold(self, *queues):
        """Nobody else receives, deletes and changes there, and what was asked before is settled."""
        for queue in queues:
            yield from self.take_turn(queue)
        yield lambda _: None if self.is_asked(*queues) else []

    def release(self, *things):
        self.held.difference_update(things)

    def remove_all(self, queues, by=("gateway",)):
        for queue in queues:
            yield lambda _: [Ask("remove", queue, (), by)] if queue in self.tables.queues else []

    def free_parts(self, bodies):
        yield from self.remove_all([body["parts"] for body in bodies if body.get("parts")])

    def move(self, source, numbers, target, **more):
        """Copies and deletions side by side, of messages in a queue that is held."""
        unique = {number: f"{self.random.getrandbits(60)}" for number in numbers}

        def moved(number):
            message, mark = self.messages(source)[number], self.mark_of(source[1])
            body = {**message.body, "id": self.id_of(mark, source, number, message.body), "in": target, **more}
            body.pop("due", None)
            if self.rules.names_original:
                body["of"] = (mark if self.rules.marks_copies else source[1], source[0], number)
            dedup = unique[number] if self.rules.side_by_side else f"{source}{number}"
            return Ask("send", ("main", self.living(target)), (message.group, dedup, body), ("move",), "begin")

        def copies(_):
            here = [number for number in numbers if number in self.messages(source)]
            return [moved(number) for number in here] if self.living(target) else []

        def ends(_):
            return [self.deletion(source, number, ("move",), "end") for number in numbers if number in self.messages(source)]

        if self.rules.side_by_side:
            opens = yield lambda now: [*copies(now), *ends(now)] if copies(now) else []
        else:
            opens = yield copies
            if opens:
                yield ends
        while opens and ends(0) and self.rules.ends_again:                  # a deletion that did nothing
            yield ends

    def clear(self, queue, theirs, by):
        """Deletes those messages of a queue that is held, and receives exactly them before where they were never received."""
        def job(now):
            if self.is_asked(queue):
                return None
            mine = [number for number, message in self.messages(queue).items() if theirs(number, message, now)]
            handed = [number for number in mine if self.messages(queue)[number].handed]
            if handed:
                return [self.deletion(queue, number, by) for number in handed[:3]]
            exact = self.leading(queue, now, theirs, 10)
            return [Ask("receive", queue, (exact, MINUTE), by)] if exact else []

        while True:
            bodies = {number: message.body for number, message in self.messages(queue).items()}
            opens = yield job
            if not opens:
                return
            deleted = [it.entry.ask.args[0][1] for it in opens if it.reply == ("deleted", True)]
            yield from self.free_parts([bodies.get(number) or {} for number in deleted])

    # -- a start

    def start(self):
        world, rules = self.world, self.rules
        yield lambda _: []
        state = None if rules.reads_behind_fence else world.store.state.copy()
        for client, pool in [(client, pool) for pool in rules.fence for client in POOLS[pool]]:
            yield lambda _: [Ask("remove", NOWHERE, (), ("fence",), pool, client)]
        self.tables = state or world.store.state.copy()
        self.last, self.begun = max(self.last, world.store.now), world.time
        world.has_read()
        if rules.cuts:
            self.number = 1 + max([number for number, _ in world.store.clients.values()], default=0)
        yield from self.mend()
        self.serves = True
        for steps in (self.send_due(), self.sweep(), self.move_on(), self.tidy()):
            self.begin(steps, background=True)

    def unfinished(self):
        """What a start has to bring to its end: whatever an earlier gateway had begun, as the tables alone say it."""
        book, lines = self.book(), [(queue, message.body) for queue, it in self.tables.queues.items() for message in it.messages.values()]
        marks, names = self.marks(), self.names()
        for source, kind, number in [body["of"] for _, body in lines if "of" in body]:
            queue = (kind, marks.get(source) if self.rules.marks_copies else source)
            if number in self.messages(queue):
                yield ("cut", queue, number)
        yield from (("purge", about[1]) for about, body in book.items() if about[0] == "queue" and body.get("purge"))
        yield from (("remove", [queue]) for queue in self.tables.queues if queue[0] in ("main", "delayed") and queue[1] not in names)
        used = {body.get("parts") for _, body in lines}
        yield from (("unused", queue) for queue in self.tables.queues if queue[0] == "body" and queue not in used)
        for source, target in DEAD_LETTERS.items():
            if self.living(source) and self.living(target):
                since = self.said("queue", target)["since"] if self.rules.asks_when_handed else -1
                yield from (("aside", ("main", self.living(source)), number, target)
                            for number, message in self.messages(("main", self.living(source))).items()
                            if message.handed > MOST and message.at > since)

    def mend(self):
        if BOOK not in self.tables.queues:
            yield lambda _: [Ask("create", BOOK)]
        while found := next(self.unfinished(), None):
            kind, *about = found
            if kind == "cut":
                yield lambda _: [self.deletion(*about, ("move",), "end")]
            elif kind == "remove":
                yield from self.remove_all(about[0], ("removal",))
            elif kind == "purge":
                yield from self.finish_purge(*about)
            elif kind == "unused":
                yield from self.remove_all(about)
            else:
                yield from self.move(about[0], [about[1]], about[2])

    # -- what clients ask for

    def serve(self, request):
        until = request.until if request.kind == "send" else None
        self.begin(getattr(self, request.kind)(request), until=until)

    def answer(self, request, result, **more):
        self.world.answer(request, result, **more)

    def create(self, request):
        yield from self.take_turn("names")
        said = self.said("queue", request.name)
        if said["stage"] == "removed" and self.clock() < said["since"] + MINUTE:
            self.answer(request, "QueueDeletedRecently")
        else:
            if said["stage"] != "there":
                number = self.free_number(self.clock())
                yield lambda _: [Ask("create", queue) for queue in stores(number)]
                yield from self.say("queue", request.name, stage="there", number=number, mark=self.random.getrandbits(30))
            self.answer(request, "done")
        self.release("names")

    def remove(self, request):
        yield from self.take_turn("names")
        number, said = self.living(request.name), self.said("queue", request.name)
        if number:
            queues = stores(number)
            yield from self.hold(*queues)
            yield from self.say("queue", request.name, stage="removed", call=request.number)
            yield lambda _: None if self.is_asked(*queues) else []
            bodies = [message.body for queue in queues for message in self.messages(queue).values()]
            yield from self.remove_all(queues, ("removal",))
            yield from self.free_parts(bodies)
            self.release(*queues)
        self.release("names")
        self.answer(request, "done" if number or said.get("call") == request.number else "QueueDoesNotExist")

    def send(self, request):
        asked = []

        def job(now):
            number = self.living(request.name)
            if not number:
                return []
            mark = self.mark(request.name)
            body = {"key": (request.number, mark), "in": request.name, "sent": now}
            if request.delay and not self.rules.delays_in_store:
                self.memory.append((now + request.delay, ("main", number), request, body))
                asked[:] = [None, body]
                return []
            parts = self.parts(body, now) if request.large else []
            queue = ("delayed" if request.delay else "main", number)
            if request.delay:
                body["due"] = now + request.delay
            line = Ask("send", queue, (request.group, f"call {request.number}", body), ("client", request))
            asked[:] = [queue, body]
            return [*parts, line] if self.rules.parts_first else [line, *parts]

        opens = yield job
        queue, body = asked or (None, None)
        line = next((it for it in opens if it.entry.ask.queue == queue), None)
        if line and line.reply[0] == "sent":
            self.answer(request, "done", key=body["key"], id=self.id_of(body["key"][1], queue, line.reply[1], {}))
        elif body and not queue:
            self.answer(request, "done", key=body["key"], id=None)
        else:
            self.answer(request, "refused")
        if line and not line.is_new:
            yield from self.free_parts([body])

    def parts(self, body, now):
        """The asks for a queue that has the parts of a large body, which its line names."""
        body["parts"] = name = self.free_body(now)
        sends = [("parts", f"{part}", {"part": part, "key": body["key"]}) for part in (1, 2)]
        return [Ask("create", name, pool="begin")] + [Ask("send", name, send, pool="begin") for send in sends]

    def unheld(self, request, queue, mark, ask):
        """The step that asks for a client, as soon as nobody holds the queue. A queue of another mark is another one."""
        passed = []

        def job(_):
            if self.living(request.name) != queue[1] or self.mark(request.name) != mark and self.rules.marks_handles:
                return []
            if queue in self.held and not passed:
                return None
            if not self.rules.holds_waiting:
                passed.append(True)
            return [ask]
        return job

    def receive(self, request):
        number, mark = self.living(request.name), self.mark(request.name)
        with self.using(number):
            yield from self.receive_from(request, ("main", number), mark)

    def receive_from(self, request, queue, mark):
        ask = Ask("receive", queue, (request.size, request.timeout), ("client", request))
        opens = yield self.unheld(request, queue, mark, ask)
        handed = opens[0].reply[1] if opens and opens[0].reply[0] == "received" else []
        target = DEAD_LETTERS.get(request.name)
        aside = [receipt[1] for receipt, _, _ in handed if receipt[2] > MOST and target and self.living(target)]
        if aside:
            yield from (self.hold(queue) if self.rules.holds else ())
            yield from self.move(queue, aside, target)
            self.release(queue)
        messages = []
        for receipt, _, body in handed:
            if receipt[1] in aside:
                continue
            self.own.pop((queue, receipt[1]), None)
            if body.get("parts"):
                opens = yield lambda _: [Ask("receive", body["parts"], (10, 0))]
                if not is_whole(body, opens[0].reply):
                    if receipt[1] in self.messages(queue):
                        self.world.hurt("torn", body["key"])
                    continue
            messages.append((queue, (mark, *receipt[1:]), body, self.id_of(mark, queue, receipt[1], body)))
        self.answer(request, "done", messages=messages)

    def delete(self, request):
        queue, (mark, *_), body = request.handle
        receipt = self.receipt_of(request.handle)
        receipt = self.own.get((queue, receipt[1]), {}).get(receipt, receipt)
        job = self.unheld(request, queue, mark, Ask("delete", queue, (receipt,), ("client", request)))
        with self.using(queue[1]):
            if self.rules.frees_behind or not body.get("parts"):
                opens = yield job
            else:
                opens = yield lambda now: (asks := job(now)) and [*asks, Ask("remove", body["parts"])]
        self.answer(request, "done" if opens and opens[0].reply[0] == "deleted" else "refused")
        if opens and opens[0].reply == ("deleted", True) and self.rules.frees_behind:
            yield from self.free_parts([body])

    def change(self, request):
        queue, (mark, *_), _ = request.handle
        ask = Ask("change", queue, (self.receipt_of(request.handle), request.timeout), ("client", request))
        with self.using(queue[1]):
            yield self.unheld(request, queue, mark, ask)
        self.answer(request, "done")

    def receipt_of(self, handle):
        """The store's receipt: it says which one of the queues of that number it is of."""
        queue, (_, number, ordinal), _ = handle
        return (self.tables.queues[queue].incarnation if queue in self.tables.queues else 0, number, ordinal)

    def purge(self, request):
        number, mark = self.living(request.name), self.mark(request.name)
        with self.using(number):
            yield from self.purge_one(request, number, mark)

    def purge_one(self, request, number, mark):
        queues = stores(number)
        yield from self.hold(*queues)
        said = self.said("queue", request.name)
        if number and self.mark(request.name) == mark and said.get("purged") != request.number:
            def begin(now):
                bounds = [self.tables.queues[queue].accepted for queue in queues]
                return next(self.say("queue", request.name, **{**said, "purge": (request.number, bounds)}))(now)
            yield begin
            yield from self.finish_purge(request.name)
        self.release(*queues)
        self.answer(request, "done")

    def finish_purge(self, name):
        said = self.said("queue", name)
        call, bounds = said["purge"]
        for queue, bound in zip(stores(said["number"]), bounds):
            yield from self.clear(queue, lambda number, _message, _now: number <= bound, ("purge", bound))
        yield from self.say("queue", name, **{**said, "purge": None, "purged": call})

    def start_task(self, request):
        yield from self.take_turn("tasks")
        number, said = self.living(request.name), self.said("task", request.name)
        if number and said["stage"] != "running":
            yield lambda now: next(self.say(
                "task", request.name, stage="running", mark=self.mark(request.name), bound=self.accepted(("main", number))))(now)
        self.release("tasks")
        self.answer(request, "done")

    def accepted(self, queue):
        return self.tables.queues[queue].accepted if queue in self.tables.queues else 0

    # -- what goes on by itself

    def send_due(self):
        def due(now):
            for number, name in self.names().items():
                numbers = [it for it, message in self.messages(("delayed", number)).items() if message.body["due"] <= now]
                if numbers:
                    return name, ("delayed", number), numbers[:3]
            return None

        while True:
            if (yield lambda now: [] if due(now) else self.remembered(now)):
                self.memory.pop(0)
            elif found := due(self.clock()):
                name, queue, numbers = found
                with self.using(queue[1]):
                    yield from self.hold(queue)
                    while any(number in self.messages(queue) and not self.messages(queue)[number].handed for number in numbers):
                        yield lambda _: [Ask("receive", queue, (10, HIDDEN))]
                    yield from self.move(queue, numbers, name)
                    self.release(queue)

    def remembered(self, now):
        """What is due of the messages in memory, in the design that has them there."""
        self.memory.sort(key=lambda it: it[0])
        if not self.memory or self.memory[0][0] > now:
            return None
        _, queue, request, body = self.memory[0]
        return [Ask("send", queue, (request.group, f"call {request.number}", body))]

    def sweep(self):
        def old(_number, message, now):
            return now >= message.body["sent"] + self.world.retention

        def due(now):
            return [("main", number) for number in self.names()
                    if any(old(0, message, now) for message in self.messages(("main", number)).values())]

        while True:
            yield lambda now: [] if now >= self.vain and due(now) else None
            for queue in due(self.clock()):
                with self.using(queue[1]):
                    yield from self.hold(queue)
                    if self.rules.exact:
                        yield from self.clear(queue, old, ("sweep", None))
                    else:
                        yield from self.clear_ten(queue, old)
                    self.release(queue)
            self.vain = self.clock() + 10 * SECOND

    def clear_ten(self, queue, theirs):
        """Receives ten, deletes those that are theirs, gives the others back, and remembers the receipts that clients have."""
        before = {number: self.receipt(queue, number) for number in self.messages(queue)}
        opens = yield lambda _: [Ask("receive", queue, (10, MINUTE), ("sweep", None))]
        for receipt, _, body in opens[0].reply[1] if opens[0].reply[0] == "received" else []:
            number = receipt[1]
            if theirs(number, self.messages(queue)[number], self.clock()):
                yield lambda _: [self.deletion(queue, number, ("sweep", None))]
                yield from self.free_parts([body])
            else:
                self.own.setdefault((queue, number), {}).update({before.get(number): receipt})
                yield lambda _: [Ask("change", queue, (receipt, 0))]

    def move_on(self):
        """Goes on with move tasks: hands itself exactly what was there when they began, and moves it."""
        def running():
            return next(((about[1], body) for about, body in self.book().items() if about[0] == "task" and body["stage"] == "running"), None)

        def within(bound):
            return lambda number, _message, _now: number <= bound

        def ready(now):
            if not (task := running()):
                return None
            queue, end = ("main", self.marks().get(task[1]["mark"])), max(task[1]["since"], self.begun) + MINUTE
            return [] if now >= end or self.leading(queue, now, within(task[1]["bound"]), 3) else None

        while True:
            yield ready
            if not (task := running()):
                continue
            name, said = task
            queue, numbers = ("main", self.marks().get(said["mark"])), []

            def job(now):
                if self.is_asked(queue):
                    return None
                exact = self.leading(queue, now, within(said["bound"]), 3)
                return [Ask("receive", queue, (exact, MINUTE), ("task",))] if exact else []

            with self.using(queue[1]):
                yield from self.hold(queue)
                opens = yield job
                if opens and opens[0].reply[0] == "received":
                    numbers = [receipt[1] for receipt, _, _ in opens[0].reply[1]]
                    yield from self.move(queue, numbers, "orders")
                self.release(queue)
            if not numbers:
                yield from self.say("task", name, **{**said, "stage": "ended"})

    def tidy(self):
        """Deletes what the book says anew behind it."""
        def passed():
            last = {message.body["about"]: number for number, message in self.messages(BOOK).items()}
            return [number for number, message in self.messages(BOOK).items() if last[message.body["about"]] != number]

        def job(_):
            numbers = passed()
            if len(numbers) < 4:
                return None
            handed = [number for number in numbers if self.messages(BOOK)[number].handed]
            return [self.deletion(BOOK, number) for number in handed[:3]] or [Ask("receive", BOOK, (10, HIDDEN))]

        while True:
            yield job


def is_whole(body, reply):
    return reply[0] == "received" and [part for _, _, part in reply[1]] == [{"part": part, "key": body["key"]} for part in (1, 2)]
