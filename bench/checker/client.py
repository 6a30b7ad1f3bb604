"""A client between two commands: what it has, what its own state refuses, and what a command asks for."""
from dataclasses import dataclass, replace

from .history import MOST_KEYS, MOST_SNAPSHOTS, Entry, has, with_change

# The replies that say up to which entry the client has seen the history.
FRESH = {"put", "del", "get", "missing", "rows", "snap", "pinned", "prepare", "commit", "rollback", "told", "heard", "unknown", "settled", "flushed", "compacted", "renewed"}
# Those that acknowledge entries.
LOGGED = {"put", "del", "prepare", "commit", "rollback", "settled"}


@dataclass(frozen=True)
class Client:
    """A client between two commands: its transaction, and the numbers of its snapshots under their labels."""

    state: str = "idle"  # or open, or prepared
    name: str = ""  # of an open transaction
    batch: tuple = ()
    locked: tuple = ()  # the keys that it locked without a change
    pin: int | None = None
    prepare: int = 0  # of a prepared one
    snapshots: tuple = ()

    def snapshot(self, label):
        return dict(self.snapshots).get(label)

    def own(self, history):
        return history.batch(self.prepare) if self.state == "prepared" else self.batch

    def has_key(self, key):
        """Whether the open transaction has the key, changed or locked."""
        return has(self.batch, key) or key in self.locked

    def has_room(self, key):
        return len(self.batch) + len(self.locked) < MOST_KEYS or self.has_key(key)


def refusal(client, command):
    """What the client's own transaction and snapshots refuse, whatever the store has."""
    kind = command[0]
    if kind in ("put", "del"):
        if client.state == "prepared":
            return ("state",)
        if client.state == "open" and not client.has_room(command[1]):
            return ("toomany",)
    if kind in ("pin", "lock", "prepare") and client.state != "open":
        return ("state",)
    if kind == "lock" and not client.has_room(command[1]):
        return ("toomany",)
    if kind in ("begin", "take", "settle", "scan") and client.state != "idle":
        return ("state",)
    if kind in ("commit", "rollback") and client.state == "idle":
        return ("state",)
    if kind == "leave" and client.state != "prepared":
        return ("state",)
    if kind == "free" and client.snapshot(command[1]) is None:
        return ("unknown snapshot", command[1])
    if is_at(command) and client.snapshot(command[-1]) is None:
        return ("unknown snapshot", command[-1])
    if kind == "snap":
        if client.snapshot(command[1]) is not None:
            return ("taken", command[1])
        if len(client.snapshots) >= MOST_SNAPSHOTS:
            return ("toomany",)
    return None


def is_at(command):
    """Whether it reads at a snapshot of the client's."""
    return (command[0], len(command)) in (("get", 4), ("scan", 5))


def change_of(command):
    """The key and the value of a put or a del."""
    return command[1], command[2] if command[0] == "put" else None


def after(client, command, answer, prepare):
    """The client once it has the reply; `took` gives it the prepare."""
    form, kind = answer[0], command[0]
    if form == "held":
        locked = tuple(key for key in client.locked if key != command[1])
        return replace(client, batch=with_change(client.batch, *change_of(command)), locked=locked)
    if kind == "lock" and form in ("get", "missing") and command[1] not in client.locked:
        return replace(client, locked=(*client.locked, command[1]))
    if form == "pinned":
        return replace(client, pin=answer[1])
    if form == "snap":
        return replace(client, snapshots=(*client.snapshots, (command[1], answer[1])))
    if form == "freed":
        return replace(client, snapshots=tuple(it for it in client.snapshots if it[0] != command[1]))
    if form == "begun":
        return replace(client, state="open", name=command[1])
    if form == "took":
        return replace(client, state="prepared", prepare=prepare, name=command[1])
    if form == "prepare":
        return replace(client, state="prepared", prepare=answer[1], batch=(), locked=(), pin=None)
    if form in ("commit", "dropped", "rollback", "left") and kind in ("commit", "rollback", "leave"):
        return replace(client, state="idle", name="", batch=(), locked=(), pin=None, prepare=0)
    return client


def asked(client, command, numbers=()):
    """The entries that the command asks the log for: those of a rollback without what its keys had. A settle commits the prepares with
    these numbers."""
    kind = command[0]
    if kind in ("put", "del") and client.state == "idle":
        return [Entry("write", batch=(change_of(command),))]
    if kind == "prepare" and client.state == "open":
        return [Entry("prepare", name=client.name, batch=client.batch)]
    if kind == "commit" and client.state == "open":
        return [Entry("write", batch=client.batch)]
    if kind == "commit" and client.state == "prepared":
        return [Entry("commit", number=client.prepare)]
    if kind == "rollback" and client.state == "prepared":
        return [Entry("undo", number=client.prepare), Entry("close", number=client.prepare)]
    if kind == "settle" and client.state == "idle":
        return [Entry("commit", number=p) for p in numbers]
    return []


def first_crowded(cells, numbers):
    """The first of the numbers that has one place in the commit cache with an earlier one, behind that one; None where none has."""
    for count, number in enumerate(numbers):
        earlier = next((p for p in numbers[:count] if p % cells == number % cells), None)
        if earlier is not None:
            return earlier, number
    return None


def names_taken(command, answer):
    """The names that a settle took: those before the one that it was refused, or all."""
    names = command[1:]
    return names[: names.index(answer[1])] if answer[0] in ("unknown", "inuse") and answer[1] in names else names


def fresh_number(command, answer, last):
    """The greatest fresh number after the reply; that of a read or a scan at a snapshot is none."""
    if answer[0] not in FRESH or is_at(command):
        return last
    return answer[2] if answer[0] in ("get", "unknown") else answer[1]
