"""Scripts and transcripts as text, read by docs/FORMATS.md."""
import re
from dataclasses import dataclass, field, replace

from .history import Entry, History


class Wrong(Exception):
    """A rule that the transcript breaks: its name, and what breaks it."""

    def __init__(self, rule, why):
        super().__init__(f"{rule}: {why}")
        self.rule, self.why = rule, why


def need(holds, rule, why):
    if not holds:
        raise Wrong(rule, why)


@dataclass
class Part:
    client: str
    commands: list  # each a tuple of words
    lines: list = field(default_factory=list)  # each a reply's
    answers: list = field(default_factory=list)  # each a reply, as reply_in reads it


@dataclass
class Text:
    parts: list  # pairs of a client and its lines
    history: History
    end: tuple  # how many entries, and how many undecided prepares


def script_in(text):
    """The parts of a script that the program takes."""
    parts = []
    for line in text.splitlines():
        words = tuple(line.split())
        if not words or words[0].startswith("#"):
            continue
        if words[0] == "client":
            parts.append(Part(words[1], []))
        else:
            parts[-1].commands.append(words)
    return parts


NUMBER = r"(0|[1-9][0-9]*)"
WORD = r"([\x21-\x7e]+)"
# The forms of a reply, each under a name: the pattern's groups follow the name.
FORMS = [
    *[(form, rf"{form} @{NUMBER}") for form in ("put", "del", "missing", "snap", "pinned", "prepare", "commit", "rollback", "told", "heard")],
    *[(form, form) for form in ("held", "freed", "begun", "dropped", "left", "took", "state", "toomany", "nothing", "fault log", "fault tables", "missing own")],
    *[(form, rf"{form} {WORD}") for form in ("taken", "inuse", "silent", "busy txn", "busy client")],
    ("get own", rf"get {WORD} own"),
    ("get", rf"get {WORD} @{NUMBER}"),
    ("unknown", rf"unknown {WORD} @{NUMBER}"),
    ("unknown snapshot", rf"unknown {WORD}"),
    ("conflict", rf"conflict {NUMBER}"),
    ("stopped", rf"stopped {NUMBER}"),
    ("halted", rf"halted {NUMBER}"),
    ("full", rf"full {NUMBER} {NUMBER}"),
    ("flushed", rf"flushed @{NUMBER} {NUMBER}"),
    ("compacted", rf"compacted @{NUMBER} {NUMBER}"),
    ("renewed", rf"renewed @{NUMBER} {NUMBER}"),
    ("settled", rf"settled @{NUMBER} {NUMBER}"),
    ("crowded", rf"crowded {NUMBER} {NUMBER}"),
    ("rows", rf"rows @{NUMBER}((?: [\x21-\x7e]+ [\x21-\x7e]+)*)"),
]
PATTERNS = [(form, re.compile(pattern)) for form, pattern in FORMS]
# The forms whose groups have a word first.
WORD_FIRST = {"taken", "inuse", "silent", "busy txn", "busy client", "get own", "get", "unknown", "unknown snapshot"}


def reply_in(line):
    """The reply that the line has: its form, and its words and numbers; of rows the number, and the pairs of keys and values."""
    for form, pattern in PATTERNS:
        found = pattern.fullmatch(line)
        if found:
            groups = found.groups()
            if form == "rows":
                words = groups[1].split()
                return (form, int(groups[0]), tuple(zip(words[::2], words[1::2])))
            words = groups[:1] if form in WORD_FIRST else ()
            return (form, *words, *map(int, groups[len(words) :]))
    raise Wrong("text", f"`{line}` is no reply")


def entry_in(line, n):
    """The entry of a line of the history, which has to be the line of just that entry."""
    words = line.split(" ")
    need(words[0] == str(n) and len(words) > 1, "text", f"`{line}` is not the line of entry {n}")
    kind, rest = words[1], words[2:]
    entry = Entry(kind)
    if kind == "prepare" and rest:
        entry, rest = Entry(kind, name=rest[0]), rest[1:]
    elif kind in ("commit", "undo", "close") and rest and rest[0].isdecimal():
        entry, rest = Entry(kind, number=int(rest[0])), rest[1:]
    else:
        need(kind == "write", "text", f"`{line}` is no entry")
    batch = []
    while rest:
        size = {"put": 3, "del": 2}.get(rest[0], 0)
        need(size and len(rest) >= size, "text", f"`{line}` has no such change")
        batch.append((rest[1], rest[2] if size == 3 else None))
        rest = rest[size:]
    entry = replace(entry, batch=tuple(batch))
    need(f"{n} {entry.line()}" == line and not (batch and kind in ("commit", "close")), "text", f"`{line}` is no entry")
    return entry


def opening_in(lines):
    """The history at its base, which the first lines tell, and the lines of the entries behind it."""
    base = re.fullmatch(f"base {NUMBER}", lines[0]) if lines else None
    if not base:
        return History(), lines
    b, store, carried, count = int(base[1]), {}, {}, 1
    need(b > 0, "text", "the base 0 has no line")
    for line in lines[1:]:
        has = re.fullmatch(f"has {WORD} {WORD}", line)
        if not has:
            break
        need(not carried and has[1] > max(store, default=""), "text", f"`{line}` is out of its order")
        store[has[1]] = has[2]
        count += 1
    for line in lines[count:]:
        number = line.split(" ")[0]
        if not number.isdecimal() or int(number) > b:
            break
        entry = entry_in(line, int(number))
        need(entry.kind == "prepare" and int(number) > max(carried, default=0), "text", f"`{line}` is not carried")
        carried[int(number)] = entry
        count += 1
    return History((), b, store, carried), lines[count:]


def text_in(text):
    """A transcript read line by line. Its history is legal."""
    need(text.endswith("\n"), "text", "the last line has no end")
    lines = text.split("\n")[:-1]
    need("history" in lines, "text", "there is no history")
    start = lines.index("history")
    parts = []
    for line in lines[:start]:
        if line.startswith("client "):
            parts.append((line.removeprefix("client "), []))
        else:
            need(parts, "text", f"`{line}` comes before the first client")
            parts[-1][1].append(line)
    need(len(lines) > start + 1, "text", "the end is missing")
    history, rest = opening_in(lines[start + 1 : -1])
    for n, line in enumerate(rest, len(history) + 1):
        entry = entry_in(line, n)
        fault = history.fault(entry)
        need(fault is None, "legal", f"`{line}`: {fault}")
        history.add(entry)
    end = re.fullmatch(f"end {NUMBER} {NUMBER}", lines[-1])
    need(end, "text", f"`{lines[-1]}` is no end")
    return Text(parts, history, tuple(map(int, end.groups())))
