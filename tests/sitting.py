"""Planners who sit down at a built `pit live`: each by two named pipes, or one by standard input and output."""
import os
import select
import subprocess

#: How long a reply may take, a program may take to end, and a planner to come. Seconds.
PATIENCE = 60


class Silent(Exception):
    """No reply came."""


class Planner:
    """One planner's two pipes."""

    def __init__(self, given, taken, process):
        self.given, self.taken, self.process = given, taken, process
        self.rest = b""

    def send(self, text):
        """Writes into the pipe. What nobody reads any more is lost."""
        try:
            os.write(self.given, text if isinstance(text, bytes) else text.encode())
        except BrokenPipeError:
            pass

    def reply(self, patience=PATIENCE):
        """The next line that comes, without its line feed. None at the end."""
        while b"\n" not in self.rest:
            if not select.select([self.taken], [], [], patience)[0]:
                raise Silent(f"no reply, after {self.rest!r}")
            more = os.read(self.taken, 65536)
            if not more:
                return None
            self.rest += more
        line, self.rest = self.rest.split(b"\n", 1)
        return line.decode()

    def ask(self, line):
        """The reply to a request."""
        self.send(line + "\n")
        return self.reply()

    def leave(self):
        """Ends the input. Answers what still came."""
        if self.given is not None:
            os.close(self.given)
            self.given = None
        said = self.rest
        while self.taken is not None:
            if not select.select([self.taken], [], [], PATIENCE)[0]:
                raise Silent("the output goes on")
            more = os.read(self.taken, 65536)
            if not more:
                os.close(self.taken)
                self.taken = None
            said += more
        self.rest = b""
        return said

    def close(self):
        """Closes what is still open."""
        for end in (self.given, self.taken):
            if end is not None:
                os.close(end)
        self.given = self.taken = None


class Sitting:
    """A run of `pit live` in a folder that has model, precedence and blocks, with so many planners who have come."""

    def __init__(self, pit, folder, history="history", planners=1, words=("--blocks", "blocks"), environment=None):
        self.folder = folder
        names = [(f"in{k}", f"out{k}") for k in range(1, planners + 1)]
        for name in (name for pair in names for name in pair):
            path = os.path.join(folder, name)
            if not os.path.exists(path):
                os.mkfifo(path)
        with open(os.path.join(folder, "said"), "wb") as said:
            self.process = subprocess.Popen(
                [pit, "live", "model", "precedence", *words, "--continue", history, *(f"{i}:{o}" for i, o in names)],
                cwd=folder, stdin=subprocess.DEVNULL, stdout=subprocess.DEVNULL, stderr=said, env={**os.environ, **(environment or {})},
            )
        self.planners = [self.sit(*names[k]) for k in range(planners)]

    def sit(self, given, taken):
        """Opens a planner's pipes, the one that the program reads first. Where the program has ended nobody opens the other ends."""
        def path(name):
            return os.path.join(self.folder, name)

        into = self.opened(path(given), os.O_WRONLY)
        # Until the program has opened its end, nothing is told of this one: neither bytes nor an end.
        out_of = os.open(path(taken), os.O_RDONLY | os.O_NONBLOCK)
        for end in (into, out_of):
            os.set_blocking(end, True)
        return Planner(into, out_of, self.process)

    def opened(self, path, flags):
        """Opens a pipe once the program has opened its end."""
        waited = 0
        while True:
            try:
                return os.open(path, flags | os.O_NONBLOCK)
            except OSError:
                if self.process.poll() is not None or waited > PATIENCE:
                    raise Silent(f"nobody opens {path}: {self.said()}") from None
                select.select([], [], [], 0.002)
                waited += 0.002

    def said(self):
        """What came on standard error so far."""
        with open(os.path.join(self.folder, "said"), encoding="utf-8") as said:
            return said.read()

    def ended(self):
        """Has each planner leave, and answers status and standard error."""
        for planner in self.planners:
            planner.leave()
        status = self.process.wait(PATIENCE)
        return status, self.said()

    def kill(self):
        """Kills the program."""
        self.process.kill()
        self.process.wait(PATIENCE)
        for planner in self.planners:
            planner.close()
