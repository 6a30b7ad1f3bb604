"""A whole transcript: each client's session, and what all of them say together of the history and of the devices."""
from collections import Counter
from dataclasses import replace

from .alone import check_alone
from .beyond import acknowledged, check_board, check_flushes, check_locks, check_settles
from .history import Edit, History, uncovered
from .session import Evidence, check_session, known_by
from .texts import need, reply_in, script_in, text_in

# What the command line has where it names none.
MOST_NUMBER = 70368744177663
BITS = 10
# Of a log in each version of the format.
LAST_NUMBERS = {1: 4294967295, 2: 2**56 - 1}


def check_pairing(history, found, answers):
    times = Counter(n for answer in answers for n in acknowledged(answer))
    for n in range(len(found) + 1, len(history) + 1):
        need(times[n] == 1, "paired", f"entry {n}, `{history.at(n).line()}`, is acknowledged {times[n]} times")


def check_faults(faults, status):
    for form in ("fault log", "fault tables"):
        need(faults[form] <= 1, "once", f"`{form}` stands {faults[form]} times")
    due = 7 if faults["fault log"] else 8 if faults["fault tables"] else 0
    need(status in (None, due), "status", f"the status is {status} in place of {due}")


def check_left(history, flushed, found, left, faults, answers, failed):
    """What the devices have afterwards: from the base on that the edit names the history, and the last edit; or one record or edit
    more that failed."""
    stored, edit = left
    renewed = [answer[1] for answer in answers if answer[0] == "renewed"]
    bases = {max([found.base, *renewed])} | ({len(history)} if faults["stopped by tables"] else set())
    need(edit.base in bases, "stored", f"the log begins behind {edit.base}")
    need(stored.begins_with(history.cut(edit.base)), "stored", "the log has another history")
    for numbers in map(acknowledged, answers):
        is_one = [n in stored.firsts for n in numbers] == [True] + [False] * (len(numbers) - 1)
        need(not numbers or numbers[0] <= edit.base or is_one, "record", f"the entries {numbers} are not one record")
    more = stored.entries[len(history) - edit.base :]
    need(not more or faults["fault log"] and is_asked(history, more, failed), "stored", f"the log has {len(more)} entries more")
    if faults["fault tables"]:
        return
    need(edit.flushed == flushed, "edit", f"the manifest has {edit.flushed} as the flushed number in place of {flushed}")
    installed = any(answer[0] in ("flushed", "compacted", "renewed") for answer in answers)
    need(installed or edit == found, "edit", "the manifest has an edit that nobody was answered")
    fault = uncovered(history, edit)
    need(fault is None, "edit", str(fault))


def is_asked(history, more, failed):
    """The entries are one record that a client asked for which was answered `fault log`; what was asked tells of each what it may be."""
    plain = [replace(entry, batch=()) if entry.kind == "undo" else entry for entry in more]
    grown = history.copy()
    for entry in more:
        if grown.fault(entry):
            return False
        grown.add(entry)
    return any(len(plain) == len(record) and all(entry in may for entry, may in zip(plain, record)) for record in failed)


def joined(script, text):
    """The script's parts with their replies."""
    need([part.client for part in script] == [client for client, _ in text.parts], "text", "other clients, or in another order")
    for part, (client, lines) in zip(script, text.parts):
        need(len(lines) == len(part.commands), "text", f"client {client} has {len(lines)} replies to {len(part.commands)} commands")
        part.lines, part.answers = lines, [reply_in(line) for line in lines]
    return script


def check(script, transcript, limit=MOST_NUMBER, found=None, left=None, status=None, version=2, bits=BITS):
    """Raises the first rule that the transcript breaks. `found` and `left` are what store_in gives, or None; the version is that of
    the log as it was found, and the commit cache has 2 to the power of so many bits words."""
    text = text_in(transcript)
    parts = joined(script_in(script), text)
    history = text.history
    need(text.end == (len(history), len(history.undecided())), "end", f"there are {len(history)} entries, and {len(history.undecided())} undecided")
    opened, edit = found or (History(), Edit())
    need(history.begins_with(opened), "begins", "the history does not begin with the one that was found")
    answers = [answer for part in parts for answer in part.answers]
    faults = Counter(answer[0] for answer in answers)
    faults["stopped by tables"] = sum(command == ("renew",) and answer == ("fault tables",) for part in parts for command, answer in zip(part.commands, part.answers))
    check_faults(faults, status)
    flushed = {edit.flushed, *(answer[1] for answer in answers if answer[0] in ("flushed", "renewed"))}
    bases = {edit.base, *(answer[1] for answer in answers if answer[0] == "renewed")}
    limits = (min(limit, LAST_NUMBERS[version]), limit)
    known = {part.client: known_by(part) for part in parts}
    failed = []
    for part in parts:
        others = {client: it for client, it in known.items() if client != part.client}
        failed += check_session(Evidence(len(opened), history, edit, limits, 2**bits, others, list(known.values()), flushed, bases, faults), part, opened)
    check_pairing(history, opened, answers)
    last = check_flushes(history, edit, answers)
    check_board(parts, len(opened))
    for part in parts:
        check_locks(history, part)
        check_settles(history, part)
    alone = check_alone(parts[0], opened, edit, limits, 2**bits) if len(parts) == 1 else None
    need(alone is None or alone.history.entries == history.entries, "due", "the replies leave another history")
    if left is not None:
        check_left(history, last, edit, left, faults, answers, failed)
        exact = alone is None or alone.halted or alone.edit == left[1]
        need(exact, "edit", "the manifest has another edit than the replies leave")
