#!/usr/bin/env python3
"""Has a built `pit` do worked examples, and compares status, both outputs and each file in its folder, whole.

usage: tests/worked.py PIT [N/M] [THEME[:CASE]..|-THEME..]      the themes of tests/worked/: these, of one a case by its number; or all but these, or all;
                                                               of their cases the Nth of M parts, one at a time, since other parts run beside it

A theme is a file of tests/worked/ with FILES, what lies in the folder that each case begins with, and CASES. Ends with status 1 where a case isn't as it
should be, and says in which way.
"""
import concurrent.futures
import fcntl
import importlib
import os
import pty
import shutil
import subprocess
import sys
import tempfile
import threading

sys.dont_write_bytecode = True
HERE = os.path.dirname(os.path.abspath(__file__))
THEMES = os.path.join(HERE, "worked")
sys.path[:0] = [HERE, THEMES]
import judge  # noqa: E402
from case import CLOSED, NOBODY, Fifo, Folder, Hard, Held, Huge, Link, Pipe, Some  # noqa: E402

#: What themes are made of.
NO_THEMES = ["case", "tiny"]
#: A run takes some milliseconds. The longest, of a million jobs, takes minutes where the program is compiled as it stands and others run beside it. Seconds.
LONGEST = 600
#: How much of a wanted or a found text is shown, in characters.
SHOWN = 2000
#: Who may not read and write every file.
NOBODY_ID = "65534"


def come_of(terminal):
    """What comes at a terminal until its program has ended."""
    said = b""
    while True:
        try:
            more = os.read(terminal, 65536)
        except OSError:
            more = b""
        if not more:
            os.close(terminal)
            # A terminal ends each line with a carriage return too.
            return said.replace(b"\r\n", b"\n")
        said += more


def feed(end, text):
    """Writes a text into a pipe, as far as it is read."""
    try:
        with open(end, "wb") as pipe:
            pipe.write(text)
    except BrokenPipeError:
        pass


def drain(end, name, sunk):
    """Takes all that comes of a pipe."""
    with open(end, "rb") as pipe:
        sunk[name] = pipe.read()


def lay(folder, files):
    """Puts what a case begins with into its folder. Links lie behind what they lead to, and permissions are set last of all."""
    def rank(item):
        return (isinstance(item[1], (Hard, Link)), item[0])

    for name, it in sorted(files.items(), key=rank):
        path = os.path.join(folder, name)
        os.makedirs(os.path.dirname(path), exist_ok=True)
        if isinstance(it, Folder):
            os.makedirs(path, exist_ok=True)
        elif isinstance(it, Link):
            os.symlink(it.to, path)
        elif isinstance(it, Hard):
            os.link(os.path.join(folder, it.to), path)
        elif isinstance(it, Fifo):
            os.mkfifo(path)
        elif not isinstance(it, Pipe):
            with open(path, "wb") as file:
                file.truncate(it.size) if isinstance(it, Huge) else file.write(it.text if isinstance(it, Held) else it)
    for name, it in sorted(files.items(), reverse=True):
        if isinstance(it, Held) and it.group is not None:
            os.chown(os.path.join(folder, name), -1, it.group)
        if isinstance(it, (Held, Folder)) and it.mode is not None:
            os.chmod(os.path.join(folder, name), it.mode)


def found(folder, name, like):
    """What lies at a name, as something like that: bytes, None, or one of the kinds of case.py."""
    path = os.path.join(folder, name)
    if not os.path.lexists(path):
        return None
    if os.path.islink(path):
        return Link(os.readlink(path))
    status = os.stat(path)
    if os.path.isdir(path):
        return Folder(status.st_mode & 0o777 if isinstance(like, Folder) and like.mode is not None else None)
    if not os.path.isfile(path):
        return Fifo()
    if isinstance(like, Huge):
        return Huge(status.st_size)
    if isinstance(like, Hard) and os.path.exists(os.path.join(folder, like.to)) and os.path.samefile(path, os.path.join(folder, like.to)):
        return like
    try:
        with open(path, "rb") as file:
            text = file.read()
    except PermissionError:
        os.chmod(path, 0o600)
        with open(path, "rb") as file:
            text = file.read()
    if not isinstance(like, Held):
        return text
    mode, group = status.st_mode & 0o777, status.st_gid
    return Held(text, mode if like.mode is not None else None, group if like.group is not None else None)


def names_in(folder):
    """All names below a folder."""
    return [os.path.relpath(os.path.join(at, name), folder) for at, folders, files in os.walk(folder) for name in (*folders, *files)]


def is_well(wanted, now):
    return isinstance(now, bytes) and now != b"" and wanted.part.lower() in now.lower() if isinstance(wanted, Some) else wanted == now


def copied(program):
    """A copy of the program that anybody may run, under the name that its help says."""
    there = tempfile.mkdtemp()
    os.chmod(there, 0o755)
    return shutil.copy(program, os.path.join(there, "pit"))


def as_somebody(program):
    """The words by which the program runs as somebody who may not read and write every file: whoever runs this, or else somebody else. None: by none."""
    if os.geteuid() != 0:
        return [program]
    words = ["setpriv", f"--reuid={NOBODY_ID}", "--clear-groups", program]
    try:
        return words if subprocess.run([*words, "--version"], stdin=subprocess.DEVNULL, capture_output=True).returncode == 0 else None
    except FileNotFoundError:
        return None


def in_shell(case, program):
    """The words that run a case's program. A shell bounds what it may take and closes its streams, just before it becomes the program."""
    bounds = []
    if case.memory:
        bounds.append(f"ulimit -v {case.memory // 1024}")
    if case.longest:
        bounds.append(f"ulimit -f {case.longest // 1024}; trap '' XFSZ")
    if case.umask is not None:
        bounds.append(f"umask {case.umask:03o}")
    closed = [word for it, word in ((case.given, "<&-"), (case.into, ">&-"), (case.error_into, "2>&-")) if it == CLOSED]
    if not bounds and not closed:
        return program
    return ["bash", "-c", "; ".join([*bounds, f'exec "$0" "$@" {" ".join(closed)}']), *program]


def who_holds():
    """How a person is told of this process, which has a file locked."""
    try:
        with open("/proc/locks", encoding="ascii") as locks:
            return f"Process {os.getpid()}" if f" {os.getpid()} " in locks.read() else "Another program"
    except OSError:
        return "Another program"


def run(program, case, folder, pipes):
    """The status of a case's run, and what came on its two outputs. What went into pipes is put behind their names."""
    words, ends, threads, sunk = list(case.words), [], [], {}
    for name, pipe in pipes.items():
        reads, writes = os.pipe()
        its, ours = (writes, reads) if pipe.text is None else (reads, writes)
        ends.append(its)
        words = [f"/dev/fd/{its}" if word == name else word for word in words]
        if pipe.text is None:
            threads.append(threading.Thread(target=drain, args=(ours, name, sunk)))
        else:
            threads.append(threading.Thread(target=feed, args=(ours, pipe.text)))
    device = case.into if case.into and case.into not in (CLOSED, NOBODY) else None
    with open(device, "r+b") if device else tempfile.TemporaryFile() as out, tempfile.TemporaryFile() as err, tempfile.TemporaryFile() as given:
        if case.given != CLOSED:
            given.write(case.given)
            given.seek(0)
        ours, its = pty.openpty() if case.terminal else (None, err)
        if case.error_into not in ("", CLOSED):
            its = os.open(case.error_into, os.O_RDWR)
            ends.append(its)
        output = out
        if case.into == NOBODY:
            reads, output = os.pipe()
            os.close(reads)
            ends.append(output)
        child = subprocess.Popen(
            [*in_shell(case, program), *words], cwd=folder, stdin=given, stdout=output, stderr=its, pass_fds=[it for it in ends if it != its],
            env={**os.environ, **case.environment},
        )
        watch = threading.Timer(LONGEST, child.kill)
        watch.start()
        for end in ends:
            os.close(end)
        for thread in threads:
            thread.start()
        said = b""
        if case.terminal:
            os.close(its)
            said = come_of(ours)
        status = child.wait()
        watch.cancel()
        for thread in threads:
            thread.join()
        pipes.update({name: Pipe(text) for name, text in sunk.items()})
        err.seek(0)
        out.seek(0)
        return status, case.out if case.into else out.read(), case.err if case.error_into else said or err.read()


def wrongs(program, case, files):
    """What isn't as it should be. None: this can't be judged here."""
    words = as_somebody(program) if case.plain_user else [program]
    if words is None:
        return None
    with tempfile.TemporaryDirectory() as folder:
        os.chmod(folder, 0o755)
        lain = {name: it for name, it in {**files, **case.files}.items() if it is not None}
        pipes = {name: it for name, it in lain.items() if isinstance(it, Pipe)}
        lay(folder, lain)
        wanted_error = case.err
        if case.locked:
            with open(os.path.join(folder, case.locked), "ab") as lock:
                fcntl.flock(lock, fcntl.LOCK_EX | fcntl.LOCK_NB)
                if b"{who}" in wanted_error:
                    wanted_error = wanted_error.replace(b"{who}", who_holds().encode())
                status, out, err = run(words, case, folder, pipes)
        else:
            status, out, err = run(words, case, folder, pipes)
        said = {"status": (case.status, status), "output": (case.out, out), "error": (wanted_error, err)}
        should = {**{name: it for name, it in lain.items() if name not in pipes}, **case.left}
        # What a folder of a case has needs no line of its own, nor has a folder above a file.
        above = {os.path.dirname(name) for name in should}
        for name in sorted({*should, *(set(names_in(folder)) - above)}):
            wanted = should.get(name)
            said[name] = (wanted, pipes.get(name) if isinstance(wanted, Pipe) else found(folder, name, wanted))
    return [f"{what}: {now!r:.{SHOWN}}, wanted {wanted!r:.{SHOWN}}" for what, (wanted, now) in said.items() if not is_well(wanted, now)]


USAGE = f"usage: {sys.argv[0]} PIT [N/M] [THEME[:CASE]..|-THEME..]"


def asked_for(words, known):
    """The part, and of each theme that is asked for its name and the number of a case, or None for all."""
    part = judge.part_of(words[0]) if words else None
    themes, left_out = [], set()
    for word in words[1:] if part else words:
        name, _, number = word.removeprefix("-").partition(":")
        if name not in known or not (number.isdigit() or word.removeprefix("-") == name):
            sys.exit(f"{USAGE}      of the themes {' '.join(known)}")
        if word.startswith("-"):
            left_out.add(name)
        else:
            themes.append((name, int(number) if number else None))
    return part, themes or [(name, None) for name in known if name not in left_out]


def main():
    known = sorted(name[:-3] for name in os.listdir(THEMES) if name.endswith(".py") and name[:-3] not in NO_THEMES)
    if len(sys.argv) < 2 or not os.access(sys.argv[1], os.X_OK):
        sys.exit(f"{USAGE}      of the themes {' '.join(known)}")
    part, themes = asked_for(sys.argv[2:], known)
    program = copied(sys.argv[1])
    at = 0
    with concurrent.futures.ThreadPoolExecutor(1 if part else len(os.sched_getaffinity(0))) as pool:
        for name, only in themes:
            theme = importlib.import_module(name)
            if not theme.CASES:
                sys.exit(f"{name} has no case")
            cases = []
            for number, case in enumerate(theme.CASES, 1):
                at += 1
                if only in (None, number) and (part is None or (at - part[0]) % part[1] == 0):
                    cases.append((number, case))
            done = 0
            for (number, case), lines in zip(cases, pool.map(lambda it: wrongs(program, it[1], theme.FILES), cases)):
                if lines is None:
                    judge.skip(f"{name}, case {number} ({case.about})", "nobody else can run the program who may not read and write every file")
                elif lines:
                    text = "\n".join([" ".join(case.words), *lines])
                    judge.wrong(f"{name}, case {number} ({case.about})", text, f"tests/worked.py {sys.argv[1]} {name}:{number}")
                else:
                    done += 1
            if done:
                judge.well(f"{name}: {done} cases", done)
    shutil.rmtree(os.path.dirname(program))
    judge.judged()


if __name__ == "__main__":
    main()
