"""Scripts of several clients, stores that they are run on, and runs of the program."""
import os
import shutil
import subprocess
import tempfile
import time
from contextlib import contextmanager
from pathlib import Path
from random import Random

WP = os.environ.get("WP", Path(__file__).resolve().parent.parent.parent / "wp")
MEMORY = "/dev/shm"
LINES_OF_A_SCRIPT = 60_000
# As many bytes as the log gets for one of the puts.
FRAME = bytes(28)


def script(clients):
    return "".join(f"client c{n}\n" + "".join(f"{line}\n" for line in lines) for n, lines in enumerate(clients))


def puts(client, count):
    return [f"put c{client}k{i % 10} {i % 10}" for i in range(count)]


def transactions(client, count):
    return [line for i in range(count) for line in (f"begin t{client}", f"put c{client}k{i % 10} {i % 10}", "prepare", "commit")]


def left_prepared(count):
    """So many transactions of one key each, prepared and left."""
    return [line for n in range(count) for line in (f"begin p{n}", f"put q{n} 1", "prepare", "leave")]


def takes_and_commits(first, count):
    return [line for n in range(first, first + count) for line in (f"take p{n}", "commit")]


def settle(first, count):
    return " ".join(["settle", *(f"p{n}" for n in range(first, first + count))])


def gets(client, count, keys):
    random = Random(client)
    return [f"get k{random.randrange(keys)}" for _ in range(count)]


def changes(first, entries, keys):
    """So many entries from that number on, which change all keys in turn."""
    each = max(1, keys // entries)
    for n in range(first, first + entries):
        lines = [f"put k{(n * each + i) % keys} {n % 10}" for i in range(each)]
        yield lines if each == 1 else ["begin t", *lines, "commit"]


def fill(folder, entries):
    """Runs the lines of the entries on the folder's store, in scripts that are not too long."""
    lines = []
    for entry in entries:
        lines += entry
        if len(lines) > LINES_OF_A_SCRIPT:
            run(folder, script([lines]))
            lines = []
    if lines:
        run(folder, script([lines]))


def run(folder, text, words=(), program=WP, command="run", **setting):
    """The seconds that a run takes on the folder's store, and its transcript."""
    start = time.perf_counter()
    ended = subprocess.run([program, command, *words], input=text.encode(), stdout=subprocess.PIPE, cwd=folder, env={**os.environ, **setting}, check=True)
    return time.perf_counter() - start, ended.stdout.decode()


@contextmanager
def copy_of(store, folder):
    """A copy of the store's files below that folder, which is synced, or a new store there."""
    with tempfile.TemporaryDirectory(dir=folder) as copy:
        if store:
            shutil.copytree(store, copy, dirs_exist_ok=True)
            for file in Path(copy).iterdir():
                with file.open() as opened:
                    os.fsync(opened.fileno())
        yield copy


def run_on_copy(store, text, folder, words=(), **setting):
    """... on a copy of the store below that folder, or on a new store there."""
    with copy_of(store, folder) as copy:
        return run(copy, text, words, **setting)


def take_copy(folder, to):
    """Moves the files that `wp copy` made in the folder to another one, as those of a store."""
    for file in Path(folder).glob("copy.*"):
        shutil.move(file, Path(to) / f"wp{file.suffix}")


def build(folder, name, source):
    """Builds a library that is loaded before the C library, in the folder."""
    text, library = Path(folder) / f"{name}.c", Path(folder) / f"{name}.so"
    text.write_text(source)
    subprocess.run(["cc", "-O2", "-shared", "-fPIC", "-o", library, text], check=True)
    return str(library)
