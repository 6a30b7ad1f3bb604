"""The table of replies: what one client may be answered over the one history, beside others who do what they do."""
from collections import Counter
from dataclasses import dataclass, field, replace

from .client import Client, after, asked, change_of, first_crowded, fresh_number, is_at, names_taken, refusal
from .history import Edit, Entry, History, has
from .texts import Wrong, need

# ---- what is known of the others


@dataclass
class Known:
    """What a client's commands and replies say to the others."""

    names: set = field(default_factory=set)  # for which it was answered `begun` or `took`, or which it took to settle them
    staged: set = field(default_factory=set)  # pairs of a name and a key that it came to lock for its open transaction of that name
    taken: set = field(default_factory=set)  # names of transactions that it took
    written: set = field(default_factory=set)  # keys that it came to write at once
    told: list = field(default_factory=list)  # pairs of a label and a number
    compacted: bool = False


def known_by(part):
    known, client = Known(), Client()
    for command, answer in zip(part.commands, part.answers):
        form = answer[0]
        if form in ("begun", "took"):
            known.names.add(command[1])
        if form == "took":
            known.taken.add(command[1])
        if command[0] == "settle" and client.state == "idle":
            known.names.update(names_taken(command, answer))
            known.taken.update(names_taken(command, answer))
        if client.state == "open" and command[0] in ("put", "del", "lock") and form in ("held", "get", "missing", "conflict"):
            known.staged.add((client.name, command[1]))
        if command[0] in ("put", "del") and client.state == "idle" and form not in ("busy txn", "busy client"):
            known.written.add(command[1])
        if form == "told":
            known.told.append((command[1], answer[1]))
        known.compacted |= form == "compacted"
        client = after(client, command, answer, 0)
    return known


@dataclass
class Evidence:
    """What a client's replies are judged by."""

    opened: int  # so many entries the store was opened with
    history: History
    found: Edit
    limits: tuple  # of the log as it was opened, and once it was renewed
    cells: int  # how many words the commit cache has
    others: dict  # what each other client's dialogue says, by the client
    all: list  # what each client's says
    flushed: set  # the flushed number that was found, and those of `flushed` and `renewed` replies
    bases: set  # the base that was found, and the numbers of `renewed` replies
    faults: Counter  # how often each form stands in the transcript


# ---- the table of replies


@dataclass
class Judge:
    """Judges one client's replies one by one."""

    evidence: Evidence
    client: Client
    last: int  # the greatest fresh number so far
    tables: int  # how many tables the client knows of
    base: int  # that of its last `renewed`, at first that of the log as it was opened
    labels: frozenset = frozenset()  # for which it was answered `told` or `heard`
    keys: tuple = ()  # of its open transaction, each with the first fresh number that the client was answered since, or None
    prepare: int = 0  # the prepare that `took` gives

    def fresh(self, n):
        need(self.last <= n, "fresh", f"{n} is less than {self.last}, which the client has seen")
        need(n <= len(self.evidence.history), "published", f"there are {len(self.evidence.history)} entries")

    def logged(self, n, entry):
        need(self.last < n, "fresh", f"the entry {n} is not later than {self.last}, which the client has seen")
        need(self.evidence.history.at(n) == entry, "logged", f"the entry {n} is not `{entry.line()}`")

    def undecided(self, name):
        """The prepares of that name that may have been undecided at the command."""
        return self.evidence.history.undecided_since(self.last, name)

    def asks(self, command):
        """Of each entry that the command asks the log for, what it may be: which prepares a settle took may show later."""
        if command[0] == "settle" and self.client.state == "idle":
            return [{Entry("commit", number=p) for p in self.undecided(name)} for name in command[1:]]
        return [{entry} for entry in asked(self.client, command)]

    def others(self):
        return self.evidence.others.values()

    def is_anothers(self, name):
        return any(name in other.names for other in self.others())

    def had_key(self, last, name, key):
        """A prepare of that name that was undecided after some number of entries, from `last` on, has the key."""
        history = self.evidence.history
        return any(has(history.batch(p), key) for p in history.undecided_since(last, name))

    def busy_txn(self, name, key):
        if self.had_key(self.last, name, key):
            return True
        had = self.had_key(self.evidence.opened, name, key)
        if any((name, key) in other.staged or name in other.taken and had for other in self.others()):
            return True
        # What was locked for a transaction stays so, whoever prepared or took it.
        held = any(p > self.evidence.opened for p in self.undecided(name)) or any(name in other.taken for other in self.others())
        return held and any((name, key) in each.staged for each in self.evidence.all)

    def allow(self, command, answer):
        """Raises the rule that the reply breaks, where it breaks one."""
        refused = refusal(self.client, command)
        if refused is not None:
            need(answer == refused, "refusal", f"the client's own state says `{' '.join(refused)}`")
            return
        form = answer[0]
        if form == "fault log":
            need(self.asks(command) or command == ("renew",), "needed", "the command is not logged")
            need(all(self.asks(command)), "failed", "a prepare that it names was never undecided")
            need(command != ("renew",) or self.renews_something(), "failed", "nothing was to be renewed")
        elif form in ("full", "stopped"):
            self.log_is_closed(command, answer)
        elif form in ("halted", "fault tables", "nothing", "flushed", "compacted", "renewed"):
            self.tables_row(command, answer)
        elif command[0] in ("put", "del", "lock") and form in ("busy txn", "busy client", "conflict"):
            self.key_row(command, answer)
        elif command[0] in ("put", "del"):
            self.change_row(command, answer)
        elif command[0] in ("get", "lock"):
            self.get_row(command, answer)
        elif command[0] == "scan":
            self.scan_row(command, answer)
        elif command[0] in ("snap", "pin", "free", "tell", "hear"):
            self.label_row(command, answer)
        else:
            self.txn_row(command, answer)

    def none(self, command, answer):
        raise Wrong("row", f"`{' '.join(command)}` has no such reply in this state")

    def bases_at(self, n):
        """The bases that the log may have had when so many entries were published: nobody renewed it between the two."""
        bases = self.evidence.bases
        return {base for base in bases if self.base <= base <= n and not any(base < other < n for other in bases)}

    def renews_something(self):
        """The last base is below what is published: where a renewal failed, neither has changed since."""
        return max(self.evidence.bases) < len(self.evidence.history)

    def log_is_closed(self, command, answer):
        needed = len(self.asks(command))
        need(needed or answer[0] == "stopped" and command == ("renew",), "needed", "the command is not logged")
        self.fresh(answer[1])
        if answer[0] == "stopped":
            need(answer[1] == len(self.evidence.history), "stopped", "later entries are published")
            need(self.evidence.faults["fault log"] or self.evidence.faults["stopped by tables"], "stopped", "the log did not fail")
        else:
            limits = {self.evidence.limits[base != self.evidence.found.base] for base in self.bases_at(answer[1])}
            need(answer[2] in limits, "full", f"with {answer[1]} entries the limits are {limits}")
            need(answer[1] + needed > answer[2], "full", f"{needed} more would be within the limit")

    def change_row(self, command, answer):
        form = answer[0]
        if form == command[0] and self.client.state == "idle":
            self.logged(answer[1], Entry("write", batch=(change_of(command),)))
        elif form == "held":
            need(self.client.state == "open", "row", "no transaction is open")
        else:
            self.none(command, answer)

    def key_row(self, command, answer):
        """A key that the client does not get."""
        form, key = answer[0], command[1]
        need(not self.client.has_key(key), "own", f"the client's own transaction has {key}")
        if form == "busy txn":
            need(self.busy_txn(answer[1], key), "busy", f"no transaction {answer[1]} of another has {key}")
        elif form == "busy client":
            other = self.evidence.others.get(answer[1])
            need(other and key in other.written, "busy", f"no other client {answer[1]} writes {key} at once")
        else:
            history, pin, n = self.evidence.history, self.client.pin, answer[1]
            need(pin is not None, "row", "the client has no pin")
            need(history.conflict(key, pin, n) == n, "conflict", f"the entry {n} does not change {key} above the pin {pin}")
            later = history.conflict(key, n, min(self.last, len(history)))
            need(later is None, "conflict", f"the entry {later} changed {key} later, and the client has seen it")

    def get_row(self, command, answer):
        history, key, form = self.evidence.history, command[1], answer[0]
        if is_at(command):
            need(form in ("get", "missing"), "row", "a read at a snapshot has no such reply")
            need(answer[-1] == self.client.snapshot(command[3]), "snapshot", f"the snapshot has the number {self.client.snapshot(command[3])}")
            self.value(key, answer)
            return
        own = self.client.own(history)
        if form in ("get own", "missing own"):
            need(has(own, key), "own", f"the client's own transaction does not change {key}")
            need(dict(own)[key] == (answer[1] if form == "get own" else None), "own", f"it leaves {dict(own)[key]}")
        elif form in ("get", "missing"):
            need(not has(own, key), "own", f"the client's own transaction changes {key}")
            self.fresh(answer[-1])
            self.value(key, answer)
        else:
            self.none(command, answer)

    def scan_row(self, command, answer):
        need(answer[0] == "rows", "row", "a scan has no such reply")
        n, told = answer[1:]
        if is_at(command):
            need(n == self.client.snapshot(command[-1]), "snapshot", f"the snapshot has the number {self.client.snapshot(command[-1])}")
        else:
            self.fresh(n)
        need(n <= len(self.evidence.history), "published", f"there are {len(self.evidence.history)} entries")
        left = self.evidence.history.rows(command[1], command[2], n)
        need(left == told, "rows", f"the first {n} entries leave {left} there")

    def value(self, key, answer):
        n = answer[-1]
        need(n <= len(self.evidence.history), "published", f"there are {len(self.evidence.history)} entries")
        left = self.evidence.history.value(key, n)
        need(left == (answer[1] if answer[0] == "get" else None), "value", f"the first {n} entries leave {left} under {key}")

    def label_row(self, command, answer):
        kind, form = command[0], answer[0]
        if form == {"snap": "snap", "pin": "pinned", "tell": "told", "hear": "heard"}.get(kind):
            self.fresh(answer[1])
            if form == "heard":
                told = [n for other in self.evidence.all for label, n in other.told if label == command[1]]
                need(any(n <= answer[1] for n in told), "heard", f"nobody told {command[1]} with {answer[1]} or less")
        elif kind == "hear" and form == "silent":
            need(answer[1] == command[1], "row", "another label")
            need(command[1] not in self.labels, "silent", f"the client told or heard {command[1]} before")
        elif (kind, form) != ("free", "freed"):
            self.none(command, answer)

    def txn_row(self, command, answer):
        kind, form = command[0], answer[0]
        if (kind, form) in (("begin", "begun"), ("leave", "left")) or (kind, form, self.client.state) == ("rollback", "dropped", "open"):
            return
        if kind == "begin" and form == "taken":
            need(answer[1] == command[1], "row", "another name")
            need(self.undecided(command[1]) or self.is_anothers(command[1]), "taken", f"nobody has the name {command[1]}")
        elif kind == "take":
            self.take_row(command, answer)
        elif kind == "settle":
            self.settle_row(command, answer)
        elif kind in ("prepare", "commit") and form == kind:
            self.logged(answer[1], asked(self.client, command)[0])
            self.unchanged(answer[1] - 1)
        elif kind == "rollback" and form == "rollback" and self.client.state == "prepared":
            self.rolled_back(answer[1])
        else:
            self.none(command, answer)

    def unchanged(self, n):
        """Of the first n entries none changes a key of the open transaction since it came to it, nor since the pin."""
        history = self.evidence.history
        for key, since in self.keys if self.client.state == "open" else ():
            change = None if since is None else history.conflict(key, since, n)
            need(change is None, "kept", f"the entry {change} changes {key}, which transaction {self.client.name} has")
            change = None if self.client.pin is None else history.conflict(key, self.client.pin, n)
            need(change is None, "validated", f"the entry {change} changes {key} above the pin {self.client.pin}")

    def rolled_back(self, n):
        self.logged(n, Entry("close", number=self.client.prepare))
        undo = self.evidence.history.at(n - 1)
        need(self.last < n - 1, "fresh", f"the entry {n - 1} is not later than {self.last}, which the client has seen")
        need(undo.kind == "undo" and undo.number == self.client.prepare, "logged", f"the entry {n - 1} does not undo {self.client.prepare}")

    def take_row(self, command, answer):
        if answer[0] == "took":
            need(self.undecided(command[1]), "took", f"no prepare named {command[1]} is undecided then")
        else:
            self.not_taken(command, answer)

    def not_taken(self, command, answer):
        """A name that the client does not get, of those that it asks for; it has got those before."""
        if answer[0] not in ("unknown", "inuse"):
            self.none(command, answer)
        name = answer[1]
        need(name in command[1:], "row", "another name")
        for other in names_taken(command, answer):
            need(self.undecided(other), "took", f"no prepare named {other} is undecided then")
        if answer[0] == "unknown":
            self.fresh(answer[2])
            need(self.evidence.history.named(name, answer[2]) is None, "unknown", f"among the first {answer[2]} entries {name} is undecided")
        else:
            need(self.is_anothers(name), "inuse", f"no other client began or took {name}")

    def settle_row(self, command, answer):
        form, names, history = answer[0], command[1:], self.evidence.history
        if form == "settled":
            n, count = answer[1:]
            need(count == len(names), "settled", f"the command has {len(names)} names")
            self.fresh(n - count)
            for at, name in enumerate(names, n - count + 1):
                p = history.named(name, n - count)
                need(p is not None, "settled", f"among the first {n - count} entries no prepare named {name} is undecided")
                self.logged(at, Entry("commit", number=p))
        elif form == "crowded":
            need(any(first_crowded(self.evidence.cells, numbers) == answer[1:] for numbers in self.named_together(names)), "crowded",
                 f"{answer[1]} and {answer[2]} never were the first two that have one place of {self.evidence.cells}")
        else:
            self.not_taken(command, answer)

    def named_together(self, names):
        """The numbers of the undecided prepares of these names, after each number of entries from what the client has seen on."""
        history = self.evidence.history
        for n in range(self.last, len(history) + 1):
            numbers = [history.named(name, n) for name in names]
            if None not in numbers:
                yield numbers

    def tables_row(self, command, answer):
        history, flushed = self.evidence.history, self.evidence.flushed
        kind, form = command[0], answer[0]
        need(kind in ("flush", "compact", "renew"), "row", "the command changes no table")
        if form == "halted":
            need(answer[1] in flushed, "halted", f"{answer[1]} was never the flushed number")
            need(self.evidence.faults["fault tables"], "halted", "the tables did not fail")
        elif form == "fault tables" and kind == "flush":
            need(history.count(max(flushed), len(history)), "failed", "nothing was to be flushed")
        elif form == "fault tables" and kind == "renew":
            need(self.renews_something(), "failed", "nothing was to be renewed")
        elif form == "fault tables":
            flushes = self.evidence.faults["flushed"] + self.evidence.faults["renewed"]
            need(self.evidence.found.tables + flushes > 1, "failed", "there were never two tables")
        elif form == "nothing" and kind == "flush":
            need(any(not history.count(f, self.last) for f in flushed), "nothing", "versions were to be flushed")
        elif form == "nothing" and kind == "renew":
            need(any(self.last <= base for base in self.evidence.bases), "nothing", "there was something to be renewed")
        elif form == "nothing":
            merged = any(other.compacted for other in self.others())
            need(self.tables < 2 or merged, "nothing", f"there were {self.tables} tables, and nobody else merged them")
        elif form == "flushed" and kind == "flush":
            self.fresh(answer[1])
            counts = {history.count(f, answer[1]) for f in flushed} - {0}
            need(answer[2] in counts, "flushed", f"{answer[2]} versions are not all up to {answer[1]} from a flushed number on")
        elif form == "compacted" and kind == "compact":
            self.fresh(answer[1])
            need(answer[2] <= history.most_versions(answer[1]), "compacted", f"there are fewer versions up to {answer[1]}")
        elif form == "renewed" and kind == "renew":
            self.fresh(answer[1])
            need(self.base < answer[1], "renewed", f"the client knows of the base {self.base}")
            undecided = len(history.undecided(answer[1]))
            need(answer[2] == undecided, "renewed", f"{undecided} prepares are undecided after {answer[1]} entries")
        else:
            self.none(command, answer)

    def next(self, command, answer):
        """The judges of the replies behind this one: of `took` one for each prepare that it may have given."""
        given = self.undecided(command[1]) if answer[0] == "took" else {0}
        last = fresh_number(command, answer, self.last)
        number = fresh_number(command, answer, None)
        keys = tuple((key, number if since is None else since) for key, since in self.keys_with(command, answer))
        tables = tables_after(self.tables, answer)
        base = answer[1] if answer[0] == "renewed" else self.base
        labels = self.labels | {command[1]} if answer[0] in ("told", "heard") else self.labels
        return [replace(self, client=after(self.client, command, answer, p), last=last, tables=tables, base=base, labels=labels, keys=keys) for p in sorted(given)]

    def keys_with(self, command, answer):
        """The keys of its transaction once it has the reply."""
        if answer[0] == "begun":
            return ()
        comes = answer[0] == "held" or command[0] == "lock" and answer[0] in ("get", "missing")
        return (*self.keys, (command[1], None)) if comes and command[1] not in dict(self.keys) else self.keys


def tables_after(tables, answer):
    if answer[0] == "flushed":
        return tables + 1
    return min(answer[2], 1) if answer[0] == "compacted" else tables


def check_session(evidence, part, found):
    """One client's replies, one after another; returns what it may have asked the log for where that failed. Which prepare it
    took may show later; so all that may be are followed."""
    judges = [Judge(evidence, Client(), len(found), evidence.found.tables, evidence.found.base)]
    failed = []
    for line, (command, answer) in enumerate(zip(part.commands, part.answers), 1):
        allowed, wrong = [], None
        for judge in judges:
            try:
                judge.allow(command, answer)
                allowed.append(judge)
            except Wrong as why:
                wrong = wrong or why
        if not allowed:
            raise Wrong(wrong.rule, f"client {part.client}, line {line}, `{' '.join(command)}`: `{part.lines[line - 1]}`: {wrong.why}")
        if answer == ("fault log",):
            failed += [judge.asks(command) for judge in allowed]
        judges = list({it.client: it for judge in allowed for it in judge.next(command, answer)}.values())
    return failed
