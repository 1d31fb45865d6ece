"""What must come of a run: the entries and the answers to clients, judged by what clients were promised."""
from collections import Counter

# What is a loss or a double; the others are told of the right designs.
LOSSES = ("lost", "doubled", "torn", "handed out after its deletion", "misplaced", "another id")


class Oracle:
    def __init__(self, world):
        self.world = world
        self.acknowledged, self.ids, self.deleted = set(), {}, set()
        self.consumed, self.gone, self.counted = Counter(), Counter(), Counter()
        self.shown, self.hurts, self.owners = {}, [], {}

    def hurt(self, kind, key=None):
        self.hurts.append((kind, key))

    # -- entries

    def takes(self, now, ask, reply, before):
        """A fresh entry, with the messages of its queue before it that it may take out."""
        who, *more = ask.by
        if ask.kind == "receive" and reply[0] == "received":
            for (incarnation, number, ordinal), _, body in reply[1]:
                if who in ("client", "task"):
                    self.shown[ask.queue, incarnation, number] = ordinal
                    self.counted[ask.queue, incarnation, number] += 1
                    if body["key"] in self.deleted:
                        self.hurt("handed out after its deletion", body["key"])
        elif ask.kind == "delete":
            incarnation, number, ordinal = ask.args[0]
            if who == "client":
                more[0].promised = ordinal >= self.shown.get((ask.queue, incarnation, number), 0)
            if reply == ("deleted", True):
                self.goes(now, who, more, number, before[number].body)
        elif reply[0] == "removed":
            for message in before.values():
                if "key" in message.body:
                    self.gone[message.body["key"]] += 1

    def goes(self, now, who, more, number, body):
        key = body.get("key")
        if who == "client":
            self.consumed[key] += 1
            if key != more[0].handle[2]["key"]:
                self.hurt("lost", key)
        elif who == "purge":
            self.gone[key] += 1
            if number > more[0]:
                self.hurt("lost", key)
        elif who == "sweep":
            self.gone[key] += 1
            if now < body["sent"] + self.world.retention:
                self.hurt("lost", key)

    # -- answers

    def is_sent(self, key, told):
        self.acknowledged.add(key)
        self.has_id(key, told)

    def is_handed(self, name, body, told):
        if body["in"] != name:
            self.hurt("misplaced", body["key"])
        self.has_id(body["key"], told)

    def is_deleted(self, request):
        if request.promised:
            self.deleted.add(request.handle[2]["key"])

    def has_id(self, key, told):
        if told is not None and (self.ids.setdefault(key, told) != told or self.owners.setdefault(told, key) != key):
            self.hurt("another id", key)

    # -- the end

    def ends(self, state, names):
        """Each message is in one place; `names` are the queues of clients by their numbers."""
        places, used = Counter(), set()
        for queue, it in state.queues.items():
            if queue[0] not in ("main", "delayed"):
                continue
            if queue[1] not in names:
                self.hurt("left", queue)
            for number, message in it.messages.items():
                body = message.body
                places[body["key"]] += 1
                if body.get("parts"):
                    used.add(body["parts"])
                    parts = [part.body for part in state.messages(body["parts"]).values()]
                    if parts != [{"part": part, "key": body["key"]} for part in (1, 2)]:
                        self.hurt("torn", body["key"])
                if queue[0] == "main" and message.handed != self.counted[queue, it.incarnation, number]:
                    self.hurt("handed to nobody", body["key"])
        for queue in state.queues:
            if queue[0] == "body" and queue not in used:
                self.hurt("left", queue)
        for key in sorted({*places, *self.consumed, *self.acknowledged}):
            if places[key] + self.consumed[key] > 1:
                self.hurt("doubled", key)
            if key in self.acknowledged and not places[key] + self.consumed[key] + self.gone[key]:
                self.hurt("lost", key)
            if key in self.deleted and places[key]:
                self.hurt("handed out after its deletion", key)
