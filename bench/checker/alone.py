"""One client alone: what is due at each of its commands, when nobody else changes the store."""
from dataclasses import dataclass, field, replace

from .client import LOGGED, Client, after, asked, first_crowded, is_at, refusal
from .history import Edit, History, has, in_order, retained
from .texts import need


@dataclass
class Alone:
    """The store as one client finds it, when nobody else changes it."""

    history: History
    edit: Edit
    limits: tuple  # of the log as it was opened, and once it was renewed
    cells: int  # how many words the commit cache has
    stopped: bool = False
    halted: bool = False
    board: dict = field(default_factory=dict)
    locked: dict = field(default_factory=dict)  # of each prepare since the opening: the keys that its transaction had locked without a change

    def asked(self, client, command):
        numbers = [self.history.named(name) for name in command[1:]] if command[0] == "settle" else ()
        return asked(client, command, numbers)

    def logs(self, client, command, answer):
        needed = len(self.asked(client, command))
        if self.stopped:
            return ("stopped", len(self.history))
        limit = self.limits[0]
        return ("full", len(self.history), limit) if len(self.history) + needed > limit else answer

    def due(self, client, command):
        """The reply that is due where no device fails."""
        kind, published = command[0], len(self.history)
        refused = refusal(client, command)
        if refused is not None:
            return refused
        if kind in ("put", "del"):
            refused = self.keeps_key(client, command[1])
            if refused is not None:
                return refused
            return ("held",) if client.state == "open" else self.logs(client, command, (kind, published + 1))
        if kind == "lock" and not has(client.batch, command[1]):
            return self.keeps_key(client, command[1]) or self.due_read(client, command)
        if kind in ("get", "lock"):
            return self.due_read(client, command)
        if kind == "scan":
            at = client.snapshot(command[-1]) if is_at(command) else published
            return ("rows", at, self.history.rows(command[1], command[2], at))
        if kind in ("begin", "take"):
            named = self.history.named(command[1]) is not None
            if kind == "begin":
                return ("taken", command[1]) if named else ("begun",)
            return ("took",) if named else ("unknown", command[1], published)
        if kind == "settle":
            return self.due_settle(client, command)
        if kind in ("prepare", "commit"):
            return self.logs(client, command, (kind, published + 1))
        if kind == "rollback":
            return ("dropped",) if client.state == "open" else self.logs(client, command, ("rollback", published + 2))
        if kind == "hear":
            return ("heard", published) if command[1] in self.board else ("silent", command[1])
        if kind in ("flush", "compact", "renew"):
            return self.due_tables(client, kind)
        return {"snap": ("snap", published), "pin": ("pinned", published), "tell": ("told", published), "free": ("freed",), "leave": ("left",)}[kind]

    def keeps_key(self, client, key):
        """Why the client does not get the key: an undecided prepare holds it, or it was changed since the pin."""
        if client.state == "open" and client.has_key(key):
            return None
        holder = self.history.holder(key)
        if holder is None:
            holder = next((p for p, keys in self.locked.items() if key in keys and p in self.history.undecided()), None)
        if holder is not None:
            return ("busy txn", self.history.undecided()[holder])
        change = None if client.pin is None else self.history.conflict(key, client.pin, len(self.history))
        return None if change is None else ("conflict", change)

    def due_read(self, client, command):
        own, key, at = client.own(self.history), command[1], len(self.history)
        if is_at(command):
            at = client.snapshot(command[3])
        elif has(own, key):
            return ("missing own",) if dict(own)[key] is None else ("get own", dict(own)[key])
        value = self.history.value(key, at)
        return ("missing", at) if value is None else ("get", value, at)

    def due_settle(self, client, command):
        published, names = len(self.history), command[1:]
        unknown = next((name for name in names if self.history.named(name) is None), None)
        if unknown is not None:
            return ("unknown", unknown, published)
        crowded = first_crowded(self.cells, [self.history.named(name) for name in names])
        return ("crowded", *crowded) if crowded else self.logs(client, command, ("settled", published + len(names), len(names)))

    def due_tables(self, client, kind):
        published = len(self.history)
        if self.halted:
            return ("halted", self.edit.flushed)
        if kind == "flush":
            versions = self.history.versions(self.edit.flushed)
            return ("flushed", published, len(versions)) if versions else ("nothing",)
        if kind == "renew":
            return self.due_renewal()
        if self.edit.tables < 2:
            return ("nothing",)
        return ("compacted", published, len(self.kept(client)))

    def due_renewal(self):
        published = len(self.history)
        if self.stopped:
            return ("stopped", published)
        return ("nothing",) if self.edit.base == published else ("renewed", published, len(self.history.undecided()))

    def kept(self, client):
        numbers = [self.history.base, self.edit.base, *(n for _, n in client.snapshots), *([] if client.pin is None else [client.pin])]
        return retained(self.history, self.edit.versions, numbers, len(self.history))

    def take(self, client, command, answer):
        """The client once it has the reply; the store is what the reply leaves of it."""
        form = answer[0]
        prepare = self.history.named(command[1]) if form == "took" else 0
        if form == "prepare":
            self.locked[answer[1]] = client.locked
        if form in ("flushed", "renewed"):
            more = tuple(self.history.versions(self.edit.flushed))
            base = len(self.history) if form == "renewed" else self.edit.base
            self.edit = Edit(len(self.history), in_order(self.edit.versions + more), self.edit.tables + bool(more), base)
            self.limits = self.limits[1:] * 2 if form == "renewed" else self.limits
        elif form == "compacted":
            self.edit = replace(self.edit, versions=self.kept(client), tables=min(answer[2], 1))
        elif form in LOGGED:
            for entry in self.asked(client, command):
                batch = self.history.prior(self.history.batch(entry.number)) if entry.kind == "undo" else entry.batch
                self.history.add(replace(entry, batch=batch))
        elif form == "told":
            self.board[command[1]] = answer[1]
        self.stopped |= form == "fault log" or form == "fault tables" and command == ("renew",)
        self.halted |= form == "fault tables"
        return after(client, command, answer, prepare)


def check_alone(part, found, edit, limits, cells):
    """Each reply is the one that is due; returns the store that is left."""
    store, client = Alone(found.copy(), edit, limits, cells), Client()
    for line, (command, answer) in enumerate(zip(part.commands, part.answers), 1):
        due = store.due(client, command)
        logs = due[0] in LOGGED or due[0] == "renewed"
        fails = answer == ("fault log",) and logs or answer == ("fault tables",) and due[0] in ("flushed", "compacted", "renewed")
        need(answer == due or fails, "due", f"line {line}, `{' '.join(command)}`: `{part.lines[line - 1]}`, and {due} is due")
        client = store.take(client, command, answer)
    return store
