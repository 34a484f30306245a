#!/usr/bin/env python3
"""Has a built `pit` write to files that are full behind each byte, and read pipes that give a byte at once.

usage: tests/devices.py PIT FOLDER [CASE]      FOLDER has the small example, CASE is the number of one case

A full file has the first bytes of what the same run writes elsewhere, and the run ends with status 3 and `pit: cannot write`. What comes of pipes is what
comes of files. Ends with status 1 where a run isn't so.
"""
import os
import resource
import signal
import subprocess
import sys
import tempfile
import threading

sys.dont_write_bytecode = True
HERE = os.path.dirname(os.path.abspath(__file__))
sys.path[:0] = [HERE, os.path.join(HERE, "worked")]
import judge  # noqa: E402
from tiny import LOADING  # noqa: E402

if len(sys.argv) not in (3, 4):
    sys.exit(__doc__)
PIT, FOLDER = (os.path.abspath(word) for word in sys.argv[1:3])
MODEL, PRECEDENCES, SOLUTION = (os.path.join(FOLDER, f"tiny.{kind}") for kind in ("cpit", "prec", "sol"))


def full(room):
    """What a program is told before it starts: no file may have more bytes."""
    signal.signal(signal.SIGXFSZ, signal.SIG_IGN)
    resource.setrlimit(resource.RLIMIT_FSIZE, (room, room))


def wrote(words, room=None):
    """The status, what a file has as the output, and what came on standard error."""
    with tempfile.TemporaryFile() as out:
        limit = (lambda: full(room)) if room is not None else None
        done = subprocess.run([PIT, *words], stdin=subprocess.DEVNULL, stdout=out, stderr=subprocess.PIPE, preexec_fn=limit)
        out.seek(0)
        return done.returncode, out.read(), done.stderr


def by_pipes(words, texts):
    """The same where these inputs are pipes, into which bytes come one by one."""
    def feed(path, text):
        with open(path, "wb", buffering=0) as pipe:
            for at in range(len(text)):
                pipe.write(text[at : at + 1])

    feeders = []
    for path, text in texts.items():
        os.mkfifo(path)
        feeders.append(threading.Thread(target=feed, args=(path, text)))
        feeders[-1].start()
    done = wrote(words)
    for feeder in feeders:
        feeder.join()
    return done


def bytes_of(path):
    with open(path, "rb") as file:
        return file.read()


def differences(*rows):
    """What isn't as it should be of rows of a text, what was found and what was wanted."""
    return "\n".join(f"{what}: {found}, wanted {wanted}" for what, found, wanted in rows if found != wanted)


def into_full_files(words):
    """A command into files that are full behind each byte of what it writes, and one that takes it all."""
    status, whole, _ = wrote(words)
    rows = [("whether it writes", whole != b"", True), ("into as many bytes as it writes", wrote(words, len(whole))[:2], (status, whole))]
    for room in range(len(whole)):
        failed, front, error = wrote(words, room)
        rows.append((f"into {room} bytes", (failed, front, error.endswith(b"pit: cannot write\n")), (3, whole[:room], True)))
    return differences(*rows)


def from_slow_pipes(words):
    """A command whose inputs are slow pipes."""
    inputs = {word: name for word, name in ((MODEL, "m"), (PRECEDENCES, "p"), (SOLUTION, "s"), ("history", "h")) if word in words}
    texts = {name: bytes_of(word) for word, name in inputs.items()}
    found = by_pipes([inputs.get(word, word) for word in words], texts)
    for name in texts:
        os.remove(name)
    return differences(("whether it writes", found[1] != b"", True), ("by pipes", found, wrote(words)))


def main():
    only = sys.argv[3] if len(sys.argv) > 3 else None
    with tempfile.TemporaryDirectory() as work:
        os.chdir(work)
        with open("history", "w") as file:
            file.write(LOADING)
        commands = [
            ["value", MODEL, SOLUTION], ["check", MODEL, PRECEDENCES, SOLUTION], ["check", "--all", MODEL, PRECEDENCES, "history"], ["table", MODEL, "history"],
            ["diff", MODEL, SOLUTION, "history"], ["info", MODEL, PRECEDENCES], ["show", MODEL, "history"], ["log", "--writes", MODEL, PRECEDENCES, "history"],
            ["replay", MODEL, PRECEDENCES, "history"], ["merge", MODEL, PRECEDENCES, SOLUTION],
        ]
        cases = [(f"{what}: {words[0]}{' --all' * ('--all' in words)}", does, words)
                 for what, does in (("full files", into_full_files), ("slow pipes", from_slow_pipes)) for words in commands]
        for number, (name, does, words) in enumerate(cases, 1):
            if only not in (None, str(number)):
                continue
            said = does(words)
            if said:
                judge.wrong(name, said, f"tests/devices.py {sys.argv[1]} {sys.argv[2]} {number}")
            else:
                judge.well(name)
        os.chdir("/")
    judge.judged()


if __name__ == "__main__":
    main()
