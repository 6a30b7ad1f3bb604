"""A store's history and tables, as docs/FORMATS.md has them: read from the store's files, and asked what they hold.

It is written from that page and from docs/DEFINITIONS.md alone, for the programs beside it, which compare the program with it.
Nothing here repairs a file: what is read is what an opening would find.
"""
from bisect import bisect_right
from dataclasses import dataclass, field, replace
from pathlib import Path

MOST_KEYS = 64
MOST_SNAPSHOTS = 64


@dataclass(frozen=True)
class Entry:
    kind: str  # write, prepare, commit, undo or close
    name: str = ""  # that of a prepare
    number: int = 0  # of the prepare that a commit, an undo or a close names
    batch: tuple = ()  # pairs of a key and a value, or None for a deletion

    def line(self):
        words = {"write": [], "prepare": [self.name]}.get(self.kind, [self.number])
        for key, value in self.batch:
            words += ["del", key] if value is None else ["put", key, value]
        return " ".join(map(str, [self.kind, *words]))


def has(batch, key):
    return any(own == key for own, _ in batch)


def with_change(batch, key, value):
    return tuple(sorted({**dict(batch), key: value}.items()))


class History:
    """A list of entries, numbered behind a base, and what each of its beginnings holds from there on: at the base a store, and the
    prepares that are undecided, by number."""

    def __init__(self, entries=(), base=0, store=None, carried=None):
        self.base, self.store, self.carried = base, store or {}, carried or {}
        self.entries = []
        self.names = [{p: entry.name for p, entry in self.carried.items()}]  # of the undecided prepares, by number: after each entry
        self.values = {key: ([base], [value]) for key, value in self.store.items()}  # of each key: the numbers at which its value changes, and the values
        self.decisions = {}  # of each number behind the base, and of what is carried: from which entry on its versions count
        self.counts = [0]  # how many versions the entries have, up to each
        self.prepares = {}  # the prepares of each name
        self.changed = {}  # the entries that have a version of each key
        self.firsts = set()  # the numbers with which records begin, where they were read of a log
        for p, entry in self.carried.items():
            self.prepares.setdefault(entry.name, []).append(p)
        for entry in entries:
            self.add(entry)

    def __len__(self):
        return self.base + len(self.entries)

    def at(self, n):
        return self.entries[n - self.base - 1] if self.base < n <= len(self) else self.carried.get(n)

    def copy(self):
        return History(self.entries, self.base, self.store, self.carried)

    def cut(self, base):
        """The same behind a later base."""
        store = {key: self.value(key, base) for key in self.values}
        carried = {p: self.at(p) for p in sorted(self.undecided(base))}
        return History(self.entries[base - self.base :], base, {key: value for key, value in store.items() if value is not None}, carried)

    def begins_with(self, other):
        """Whether the other one has the same base, and is this one's beginning."""
        same = (self.base, self.store, self.carried) == (other.base, other.store, other.carried)
        return same and self.entries[: len(other.entries)] == other.entries

    def add(self, entry):
        self.entries.append(entry)
        n = len(self)
        names = self.names[-1]
        self.counts.append(self.counts[-1] + len(entry.batch))
        for key, _ in entry.batch:
            self.changed.setdefault(key, []).append(n)
        if entry.kind == "prepare":
            names = {**names, n: entry.name}
            self.prepares.setdefault(entry.name, []).append(n)
        if entry.kind in ("write", "undo"):
            self.decisions[n] = n
        if entry.kind in ("commit", "close"):
            self.decisions.setdefault(entry.number, n)
            names = {p: name for p, name in names.items() if p != entry.number}
        self.names.append(names)
        changes = entry.batch if entry.kind == "write" else self.batch(entry.number) if entry.kind == "commit" else ()
        for key, value in changes:
            numbers, values = self.values.setdefault(key, ([], []))
            numbers.append(n)
            values.append(value)

    def batch(self, p):
        """The batch of the prepare p; that of no prepare is empty."""
        entry = self.at(p)
        return entry.batch if entry and entry.kind == "prepare" else ()

    def undecided(self, n=None):
        return self.names[len(self.entries) if n is None else n - self.base]

    def named(self, name, n=None):
        """The undecided prepare of that name among the first n entries."""
        return next((p for p, other in sorted(self.undecided(n).items()) if other == name), None)

    def undecided_since(self, last, name):
        """The prepares of that name that are undecided after some number of entries, from `last` on."""
        return {p for p in self.prepares.get(name, ()) if self.decisions.get(p, last + 1) > last}

    def holder(self, key):
        return next((p for p in sorted(self.undecided()) if has(self.batch(p), key)), None)

    def value(self, key, n=None):
        """What the first n entries leave under the key."""
        numbers, values = self.values.get(key, ([], []))
        place = bisect_right(numbers, len(self) if n is None else n)
        return values[place - 1] if place else None

    def rows(self, start, end, n):
        """The keys of a range, both ends of which belong to it, under which the first n entries leave a value, with it."""
        values = [(key, self.value(key, n)) for key in sorted(self.values) if start <= key <= end]
        return tuple((key, value) for key, value in values if value is not None)

    def conflict(self, key, after, n):
        """The last of the entries after so many, among the first n, that changed what the store has under the key, or None."""
        numbers, _ = self.values.get(key, ([], []))
        place = bisect_right(numbers, n)
        return numbers[place - 1] if place and numbers[place - 1] > after else None

    def prior(self, batch):
        return tuple((key, self.value(key)) for key, _ in batch)

    def is_committed(self, p, n):
        """Whether the versions of the number count among the first n entries: those up to the base do, but for what is carried."""
        return p <= n if p <= self.base and p not in self.carried else self.decisions.get(p, n + 1) <= n

    def versions(self, after, n=None):
        """The versions of the entries after so many, among the first n."""
        end = len(self) if n is None else n
        return [(key, i, value) for i in range(max(after, self.base) + 1, end + 1) for key, value in self.at(i).batch]

    def change(self, key, after, n):
        """An entry after so many, among the first n, that has a version of the key, or None."""
        numbers = self.changed.get(key, [])
        place = bisect_right(numbers, after)
        return numbers[place] if place < len(numbers) and numbers[place] <= n else None

    def count(self, after, n):
        """How many versions the entries after so many have, among the first n."""
        return max(0, self.counts[n - self.base] - self.counts[min(max(after, self.base), len(self)) - self.base])

    def most_versions(self, n):
        """How many versions there may be up to n: those of the entries and of what is carried, and one of each key at the base."""
        return len(self.store) + sum(len(entry.batch) for entry in self.carried.values()) + self.count(self.base, n)

    def fault(self, entry):
        """Why the entry may not come next, or None."""
        if len(entry.batch) > MOST_KEYS or [key for key, _ in entry.batch] != sorted({key for key, _ in entry.batch}):
            return "its changes are no batch"
        last = self.at(len(self))
        undone = last.number if last and last.kind == "undo" else None
        if entry.kind == "close" and undone != entry.number or entry.kind != "close" and undone is not None:
            return "a close comes right after the undo of its prepare, and nothing else does"
        if entry.kind in ("commit", "undo", "close") and entry.number not in self.undecided():
            return f"no undecided prepare is {entry.number}"
        if entry.kind == "undo" and entry.batch != self.prior(self.batch(entry.number)):
            return "its changes are not what the keys had"
        if entry.kind in ("write", "prepare"):
            for key, _ in entry.batch:
                if self.holder(key) is not None:
                    return f"the prepare {self.holder(key)} holds {key}"
        if entry.kind == "prepare" and self.named(entry.name) is not None:
            return f"the prepare {self.named(entry.name)} is named {entry.name}"
        return None


# ---- tables


@dataclass
class Edit:
    """The last edit of a store: its flushed number, its tables' versions in order, how many tables they are, and the base of the log
    that it names. At which place that log begins is told beside."""

    flushed: int = 0
    versions: tuple = ()
    tables: int = 0
    base: int = 0
    place: int = field(default=0, compare=False)


def in_order(versions):
    return tuple(sorted(set(versions), key=lambda it: (it[0], -it[1])))


def retained(history, versions, snapshots, n):
    """The versions that a compaction keeps when n entries are published."""
    kept = []
    for key, number, value in versions:
        newer = [other for own, other, _ in versions if own == key and other > number]
        floors = [s for s in (n, *snapshots) if history.is_committed(number, s)]
        if not history.is_committed(number, n) or any(not any(history.is_committed(it, s) for it in newer) for s in floors):
            kept.append((key, number, value))
    while True:
        oldest = {key: (key, number, value) for key, number, value in kept}
        gone = {it for it in oldest.values() if it[2] is None and history.is_committed(it[1], n)}
        if not gone:
            return tuple(kept)
        kept = [it for it in kept if it not in gone]


def uncovered(history, edit):
    """Why the edit's versions, with those of later entries, do not show what the history holds, or None."""
    if not edit.base <= edit.flushed <= len(history):
        return f"{edit.flushed} is flushed, of {len(history)} entries behind {edit.base}"
    versions = in_order(edit.versions + tuple(history.versions(edit.flushed)))
    for key, number, value in versions:
        entry = history.at(number)
        if entry is None and number <= history.base:
            later = [p for p, carried in history.carried.items() if has(carried.batch, key) and p <= number]
            if later:
                return f"{key} has the number {number}, and the prepare {later[0]} holds it"
        elif entry is None or (key, value) not in entry.batch:
            return f"the entry {number} has no such version of {key}"
    found = {(key, number) for key, number, _ in versions}
    last = history.at(len(history))
    needed = [*history.undecided(), *([len(history)] if last and last.kind == "undo" else [])]
    for number in needed:
        for key, _ in history.at(number).batch:
            if (key, number) not in found:
                return f"the version of {key} with the number {number} is missing"
    for n in (edit.base, len(history)):
        newest = {}
        for key, number, value in versions:
            if history.is_committed(number, n):
                newest.setdefault(key, value)
        for key in {*newest, *history.values}:
            if newest.get(key) != history.value(key, n):
                return f"under {key} they show {newest.get(key)} at {n}, and not {history.value(key, n)}"
    return None


# ---- files


class Damaged(Exception):
    pass


class Fields:
    def __init__(self, data):
        self.data = data
        self.at = 0

    def take(self, count):
        if self.at + count > len(self.data):
            raise Damaged("the bytes end too early")
        piece = self.data[self.at : self.at + count]
        self.at += count
        return piece

    def number(self, count):
        return int.from_bytes(self.take(count), "big")

    def word(self, count):
        return self.take(self.number(count)).decode("ascii")

    def value(self):
        kind = self.number(1)
        if kind > 1:
            raise Damaged("neither a value nor a deletion")
        return self.word(2) if kind else None

    def batch(self):
        changes = []
        for _ in range(self.number(1)):
            kind = self.number(1)
            key = self.word(1)
            changes.append((key, self.word(2) if kind else None))
        return tuple(changes)

    def end(self):
        if self.at != len(self.data):
            raise Damaged("bytes follow the end")


def records(data, magic, versions=(1,)):
    """The records before the first closed gate, the store's id and the format's version; of a log that was never made, none, no id
    and the newest version."""
    fields = Fields(data)
    if len(data) < 2 or fields.number(1) == 0:
        return [], None, versions[-1]
    if fields.take(4) != magic:
        raise Damaged("another head")
    version = fields.number(1)
    if version not in versions:
        raise Damaged("another version")
    store = fields.number(4)
    found = []
    while fields.number(1):
        found.append(fields.take(fields.number(8)))
    return found, store, version


def log_records(data, place):
    """The records of the log that begins at the place, and its version."""
    found, _, version = records(data[place:], b"WPLG", (1, 2))
    return found, version


def base_of(record):
    """What a base record says: the base, and the prepares that are carried."""
    fields = Fields(record)
    base, carried = fields.number(8), {}
    for _ in range(fields.number(8)):
        p = fields.number(8)
        if not max(carried, default=0) < p <= base:
            raise Damaged("another order of what is carried")
        carried[p] = Entry("prepare", name=fields.word(1), batch=fields.batch())
    fields.end()
    return base, carried


def entries_of(record, due, version):
    fields, width = Fields(record), {1: 4, 2: 8}[version]
    if fields.number(width) != due:
        raise Damaged("another number")
    kind = fields.number(1)
    if kind == 1:
        entries = [Entry("write", batch=fields.batch())]
    elif kind == 2:
        entries = [Entry("prepare", name=fields.word(1), batch=fields.batch())]
    elif kind == 3:
        entries = [Entry("commit", number=fields.number(width))]
    elif kind == 4:
        p = fields.number(width)
        entries = [Entry("undo", number=p, batch=fields.batch()), Entry("close", number=p)]
    elif kind == 6:
        count = fields.number(1)
        if not 2 <= count <= 16:
            raise Damaged("another count of commits")
        entries = [Entry("commit", number=fields.number(width)) for _ in range(count)]
    else:
        raise Damaged("no kind of record")
    fields.end()
    return entries


def behind_base(found, version):
    """The base that the records of a log begin with, what it carries, and the other records."""
    if version == 1 or not found:
        return 0, {}, found
    return *base_of(found[0]), found[1:]


def history_in(data, place=0, versions=()):
    """The history that the bytes of a log have from the place on, over tables with these versions."""
    found, version = log_records(data, place)
    base, carried, found = behind_base(found, version)
    store = {}
    for key, number, value in versions:
        if number <= base and number not in carried:
            store.setdefault(key, value)
    history = History((), base, {key: value for key, value in store.items() if value is not None}, carried)
    for record in found:
        history.firsts.add(len(history) + 1)
        for entry in entries_of(record, len(history) + 1, version):
            fault = history.fault(entry)
            if fault:
                raise Damaged(f"entry {len(history) + 1}: {fault}")
            history.add(entry)
    return history


def versions_in(table, store, flushed):
    fields = Fields(table)
    width = {b"WPTB\x01": 4, b"WPTB\x02": 8}.get(fields.take(5))
    if width is None or fields.number(4) != store:
        raise Damaged("another head")
    count, blocks = fields.number(8), fields.number(8)
    versions, places = [], []
    for _ in range(blocks):
        places.append(fields.at)
        for _ in range(fields.number(2)):
            versions.append((fields.word(1), fields.number(width), fields.value()))
    index = fields.at
    if [fields.number(8) for _ in range(blocks)] != places or fields.number(8) != index:
        raise Damaged("another index")
    fields.end()
    if len(versions) != count or tuple(versions) != in_order(versions):
        raise Damaged("another count or order of versions")
    if any(not 1 <= number <= flushed for _, number, _ in versions):
        raise Damaged("a version above the flushed number")
    return versions


def edit_in(record, tables, store):
    """An edit without the base of its log, which it does not say."""
    fields = Fields(record)
    flushed, count, place = fields.number(4), fields.number(4), 0
    if (flushed, count) == (0, 0xFFFFFFFF):
        flushed, place, count = fields.number(8), fields.number(8), fields.number(8)
    places = [(fields.number(8), fields.number(8)) for _ in range(count)]
    fields.end()
    versions = [version for at, length in places for version in versions_in(tables[at : at + length], store, flushed)]
    return Edit(flushed, in_order(versions), len(places), place=place)


def bytes_of(folder, name):
    file = Path(folder) / name
    return file.read_bytes() if file.exists() else b""


def last_edit(folder):
    """The last edit of the store in the folder, without the base of its log."""
    edits, store, _ = records(bytes_of(folder, "wp.manifest"), b"WPMF")
    return edit_in(edits[-1], bytes_of(folder, "wp.tables"), store) if edits else Edit()


def version_in(folder):
    """The version of the store's log."""
    return log_records(bytes_of(folder, "wp.log"), last_edit(folder).place)[1]


def store_in(folder):
    """The history and the last edit of the store in the folder; new ones where there is none."""
    edit = last_edit(folder)
    history = history_in(bytes_of(folder, "wp.log"), edit.place, edit.versions)
    edit = replace(edit, base=history.base)
    fault = uncovered(history, edit)
    if fault:
        raise Damaged(fault)
    return history, edit
