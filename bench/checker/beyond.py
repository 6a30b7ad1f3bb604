"""What several clients may not be answered, though the table of replies leaves it open: by what must have come before what."""
from .client import Client, after, fresh_number, names_taken
from .texts import need


def acknowledged(answer):
    """The numbers of the entries that the reply acknowledges, which are one record of the log."""
    if answer[0] == "settled":
        return [*range(answer[1] - answer[2] + 1, answer[1] + 1)]
    if answer[0] in ("put", "del", "prepare", "commit"):
        return [answer[1]]
    return [answer[1] - 1, answer[1]] if answer[0] == "rollback" else []


def check_flushes(history, found, answers):
    """The flushes make one chain, from the flushed number that was found on, and renewals flush too; returns the last one's number."""
    flushed = found.flushed
    for form, n, count in sorted((answer for answer in answers if answer[0] in ("flushed", "renewed")), key=lambda it: (it[1], it[0])):
        need(form == "renewed" or history.count(flushed, n) == count, "chain", f"`flushed @{n} {count}` does not follow the flush at {flushed}")
        flushed = n
    for answer in answers:
        need(answer[0] != "halted" or answer[1] == flushed, "chain", f"`halted` has {answer[-1]}, and the last flushed number is {flushed}")
    return flushed


def check_locks(history, part):
    """While the client's open transaction has a key, no entry of another changes it, of transactions that never log an entry too: from
    the first number on that the client was answered since, up to the last one, or to the transaction's own entry."""
    client, since = Client(), {}
    for line, (command, answer) in enumerate(zip(part.commands, part.answers), 1):
        n = fresh_number(command, answer, None)
        if client.state == "open" and n is not None:
            end = n - 1 if answer[0] in ("commit", "prepare") else n
            for key in (*dict(client.batch), *client.locked):
                change = history.change(key, since.setdefault(key, n), end)
                need(change is None, "exclusive", f"client {part.client}, line {line}: entry {change} changes {key}, which transaction {client.name} has")
        client = after(client, command, answer, 0)
        since = since if client.state == "open" else {}


def check_settles(history, part):
    """What a settle has taken when it is refused is undecided still at the number that it is told: nobody else decides it meanwhile."""
    for line, (command, answer) in enumerate(zip(part.commands, part.answers), 1):
        if command[0] != "settle" or answer[0] not in ("unknown", "stopped", "full"):
            continue
        n = answer[2] if answer[0] == "unknown" else answer[1]
        for name in names_taken(command, answer):
            need(history.named(name, n) is not None, "taken", f"client {part.client}, line {line}: among the first {n} entries no prepare named {name} is undecided")


def check_board(parts, opened):
    """Whoever has seen an entry that the teller of a label has logged behind telling it finds the label."""
    shown = {}  # the least such entry of each label
    for part in parts:
        told = set()
        for command, answer in zip(part.commands, part.answers):
            for n in acknowledged(answer):
                for label in told:
                    shown[label] = min(n, shown.get(label, n))
                told = set()
            if answer[0] == "told":
                told.add(command[1])
    for part in parts:
        last = opened
        for line, (command, answer) in enumerate(zip(part.commands, part.answers), 1):
            if answer[0] == "silent":
                n = shown.get(command[1], last + 1)
                need(n > last, "board", f"client {part.client}, line {line}: {command[1]} was told before entry {n}, which the client has seen")
            last = fresh_number(command, answer, last)
