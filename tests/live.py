#!/usr/bin/env python3
"""Has planners sit down at a built `pit live`: worked sessions, files that are carried on, pipes that end or stay shut, and drawn sessions beside a plain
program that keeps lists.

usage: tests/live.py PIT [RUNS [SEED]]      30 drawn sessions from seed 1, where these aren't said

A drawn session has 1, 2 or 8 planners on a drawn pit, who ask in a drawn order, one request at a time. Each reply, the history and standard error have to be
those that are computed here. Then eight planners ask as fast as they can, and their history is gone over by `pit replay` and by rules that are written anew
here. Ends with status 1 where something isn't so.
"""
import json
import os
import random
import shutil
import subprocess
import sys
import tempfile
import threading

HERE = os.path.dirname(os.path.abspath(__file__))
sys.dont_write_bytecode = True
sys.path[:0] = [HERE, os.path.join(HERE, "worked"), os.path.join(HERE, "..", "audit")]
import judge  # noqa: E402
import tiny  # noqa: E402
from sitting import PATIENCE, Silent, Sitting  # noqa: E402
from soak import Pit, State, decimal, entries_of, go_over, history_text, lines, wants, words_of, Wrong  # noqa: E402

AGAIN = "tests/live.py ./pit"


def lay(folder, texts):
    for name, text in texts.items():
        with open(os.path.join(folder, name), "wb") as file:
            file.write(text if isinstance(text, bytes) else text.encode())


def read(folder, name):
    path = os.path.join(folder, name)
    if not os.path.exists(path):
        return None
    with open(path, "rb") as file:
        return file.read()


SMALL = {"model": tiny.MODEL, "precedence": tiny.PRECEDENCES, "blocks": tiny.PLACES}


def case(about):
    """A case: a function of the program and of a fresh folder with the small pit. It raises what is wrong."""
    def kept(function):
        CASES.append((about, function))
        return function
    return kept


CASES = []


def asks(planner, *rows):
    """Each request of the rows `a > b` has the reply b."""
    for row in rows:
        asked, _, due = row.partition(" > ")
        found = planner.ask(asked)
        wants(found == due, f"{asked}: {found!r}, wanted {due!r}")


def ends(sitting, status, said):
    found = sitting.ended()
    wants(found == (status, said), f"ended with {found}, wanted {(status, said)}")


def is_left(folder, history):
    found = read(folder, "history")
    wants(found == history.encode(), f"the history is {found}, wanted {history}")
    wants(read(folder, "history.pit-new") is None, "a new file is left")


def entry(act, planner, job, start, reply, reads=(), writes=(), revises=()):
    return {
        "act": act, "planner": planner, "job": job, "start": start, "reply": reply,
        "reads": [list(pair) for pair in reads], "writes": [list(pair) for pair in writes], "revises": [list(of) for of in revises],
    }


def in_two(entries):
    """The text of a history in format 2."""
    return lines(json.dumps(each, sort_keys=True, separators=(",", ":")) for each in [{"format": 2}, *entries])


LOADED = [
    entry("commit", 1, 1, 0, {"committed": 1}, writes=[(0, 0), (1, 0)]),
    entry("commit", 1, 2, 1, {"over": [0, 0, "5000000", "4000000"]}, writes=[(3, 0)]),
    entry("commit", 1, 3, 1, {"committed": 2}, reads=[(3, None)], writes=[(3, 1)]),
]


@case("a planner commits, is refused and commits again")
def first_session(pit, folder):
    sitting = Sitting(pit, folder)
    asks(
        sitting.planners[0],
        "begin > begun 1 0", "put 0 0 > ok", "put 1 0 > ok", "commit > committed 1",
        "begin > begun 2 1", "put 3 0 > ok", "commit > refused over 0 0 5.000000 4.000000",
        "begin > begun 3 1", "read 3 > held 3 -", "put 3 1 > ok", "commit > committed 2", "value > value 2 15.045454545455000000",
    )
    ends(sitting, 0, "history new\nlive 1 planners 0 commits 0 entries\nplanner 1 requests 12 entries 3 ended input\nvalue 15.045454545455000000\n")
    is_left(folder, in_two(LOADED))


@case("a history is carried on by another session, and an open transaction is given up at the end of input")
def carried_on(pit, folder):
    lay(folder, {"history": in_two(LOADED)})
    sitting = Sitting(pit, folder)
    asks(
        sitting.planners[0],
        "begin > begun 1 2", "read 3 > held 3 1", "put 3 0 > ok", "read 3 > held 3 0", "abandon > abandoned", "read 3 > fault job order",
        "begin > begun 2 2", "begin > fault job order", "clear 3 > ok",
    )
    ends(sitting, 0, "live 1 planners 2 commits 3 entries\nplanner 1 requests 9 entries 0 ended input\nvalue 15.045454545455000000\n")
    is_left(folder, in_two(LOADED))


@case("each fault leaves the transaction as it was")
def faults(pit, folder):
    sitting = Sitting(pit, folder)
    asks(
        sitting.planners[0],
        "put 0 0 > fault job order", "frob > fault unknown word", "begin now > fault field count", "begin > begun 1 0",
        "put 4 0 > fault block out of range", "put 0 2 > fault period out of range", "put x 0 > fault bad number",
        "x" * 65_537 + " > fault line too long", "commit > committed 1",
    )
    ends(sitting, 1, "history new\nlive 1 planners 0 commits 0 entries\nplanner 1 requests 9 entries 1 ended input\nvalue 0.000000000000000000\nshort 0 1 0.000000 1.000000\n")
    is_left(folder, in_two([entry("commit", 1, 1, 0, {"committed": 1})]))


@case("blank lines and comments get no reply, and EOF ends the input")
def unanswered(pit, folder):
    sitting = Sitting(pit, folder)
    planner = sitting.planners[0]
    planner.send("\n% nothing\n  \t\r\nbegin\r\n")
    wants(planner.reply() == "begun 1 0", "the first request has another reply")
    planner.send("EOF\nvalue\n")
    wants(planner.reply() is None, "a reply comes behind EOF")
    ends(sitting, 1, "history new\nlive 1 planners 0 commits 0 entries\nplanner 1 requests 1 entries 0 ended input\nvalue 0.000000000000000000\nshort 0 1 0.000000 1.000000\n")


@case("what another planner has committed since is told")
def moved(pit, folder):
    sitting = Sitting(pit, folder, planners=2)
    one, two = sitting.planners
    asks(one, "begin > begun 1 0")
    asks(two, "begin > begun 1 0", "put 3 1 > ok", "commit > committed 1")
    asks(one, "read 3 > moved 3 1", "abandon > abandoned", "begin > begun 2 1", "read 3 > held 3 1")
    asks(two, "begin > begun 2 1", "clear 3 > ok", "commit > committed 2")
    asks(one, "put 0 0 > ok", "commit > refused moved 3 2")
    ends(sitting, 1, "history new\nlive 2 planners 0 commits 0 entries\nplanner 1 requests 7 entries 1 ended input\nplanner 2 requests 6 entries 2 ended input\n"
         "value 0.000000000000000000\nshort 0 1 0.000000 1.000000\n")
    is_left(folder, in_two([
        entry("commit", 2, 1, 0, {"committed": 1}, writes=[(3, 1)]), entry("commit", 2, 2, 1, {"committed": 2}, writes=[(3, None)]),
        entry("commit", 1, 2, 1, {"moved": [3, 2]}, reads=[(3, 1)], writes=[(0, 0)]),
    ]))


@case("a torn end is left out")
def torn(pit, folder):
    whole = in_two(LOADED)
    lay(folder, {"history": whole[:-10]})
    sitting = Sitting(pit, folder)
    asks(sitting.planners[0], "begin > begun 1 1")
    cut = len(whole[:-10]) - whole[:-10].rindex("\n") - 1
    ends(sitting, 1, f"history cut {cut}\nlive 1 planners 1 commits 2 entries\nplanner 1 requests 1 entries 0 ended input\nvalue 10.500000000000000000\nshort 0 1 0.000000 1.000000\n")
    is_left(folder, in_two(LOADED[:2]))


@case("a last line that only lacks its line feed stays")
def unended(pit, folder):
    lay(folder, {"history": in_two(LOADED)[:-1]})
    ends(Sitting(pit, folder), 0, "live 1 planners 2 commits 3 entries\nplanner 1 requests 0 entries 0 ended input\nvalue 15.045454545455000000\n")
    is_left(folder, in_two(LOADED))


def once(pit, folder, *words, given=b""):
    """A run to its end, with one planner on standard input and output."""
    done = subprocess.run([pit, *words], cwd=folder, input=given, capture_output=True, timeout=PATIENCE, check=False)
    return done.returncode, done.stdout.decode(), done.stderr.decode()


LIVE = ("live", "model", "precedence", "--blocks", "blocks", "--continue", "history")


@case("a text without a line feed is parsed as it is, and stays")
def no_line_feed(pit, folder):
    lay(folder, {"history": '{"form'})
    found = once(pit, folder, *LIVE)
    wants(found == (2, "", "pit: history line 1: not json\n"), f"{found}")
    is_left(folder, '{"form')


@case("a history of format 1 is carried on in format 2")
def of_format_one(pit, folder):
    lay(folder, {"history": history_text(LOADED)})
    found = once(pit, folder, *LIVE)
    wants(found == (0, "", "live 1 planners 2 commits 3 entries\nplanner 1 requests 0 entries 0 ended input\nvalue 15.045454545455000000\n"), f"{found}")
    is_left(folder, in_two(LOADED))


@case("one planner on standard input and output")
def on_standard_streams(pit, folder):
    found = once(pit, folder, *LIVE, given=b"begin\nput 0 0\nput 1 0\nput 3 1\ncommit")
    due = (0, "begun 1 0\nok\nok\nok\ncommitted 1\n",
           "history new\nlive 1 planners 0 commits 0 entries\nplanner 1 requests 5 entries 1 ended input\nvalue 15.045454545455000000\n")
    wants(found == due, f"{found}, wanted {due}")


@case("while it runs every other program is told that the history is in use")
def in_use(pit, folder):
    lay(folder, {"history": history_text(LOADED), "script": "begin\ncommit\n", "edit": "3 1\n"})
    sitting = Sitting(pit, folder)
    asks(sitting.planners[0], "begin > begun 1 2")
    for words in (("plan", "model", "precedence", "--continue", "history", "script"), ("merge", "model", "precedence", "--continue", "history", "edit"), LIVE):
        found = once(pit, folder, *words)
        wants(found == (3, "", "pit: history is in use\n"), f"{words}: {found}")
    wants(sitting.ended()[0] == 0, "it didn't end well")
    is_left(folder, in_two(LOADED))
    found = once(pit, folder, "plan", "model", "precedence", "--blocks", "blocks", "--continue", "history", "script")
    wants(found[0] == 0, f"the history can't be carried on: {found}")


@case("a fault stands alone, and the history stays")
def stands_alone(pit, folder):
    illegal = in_two(LOADED).replace('"committed":2', '"committed":3')
    for name, text, due in (
        ("model", "NAME: x\n", "pit: model line 2: missing TYPE\n"), ("precedence", "9 0\n", "pit: precedence line 1: block out of range\n"),
        ("history", illegal, "pit: history: illegal 3\n"), ("history", in_two(LOADED)[:-10] + "\n", "pit: history line 4: not json\n"),
    ):
        lay(folder, SMALL | {"history": in_two(LOADED)} | {name: text})
        found = once(pit, folder, *LIVE)
        wants(found == (2, "", due), f"{name}: {found}, wanted {due!r}")
        is_left(folder, text if name == "history" else in_two(LOADED))


@case("a planner whose pipes can't be opened holds up nobody")
def no_stream(pit, folder):
    lay(folder, {"calm": "begin\nput 3 1\ncommit\n"})
    found = once(pit, folder, *LIVE, "none/in:none/out", "calm:calm.out", "calm:none/out")
    due = (3, "", "history new\nlive 3 planners 0 commits 0 entries\nplanner 1 requests 0 entries 0 ended no stream\nplanner 2 requests 3 entries 1 ended input\n"
           "planner 3 requests 0 entries 0 ended no stream\nvalue 4.545454545455000000\n")
    wants(found == due, f"{found}, wanted {due}")
    wants(read(folder, "calm.out") == b"begun 1 0\nok\ncommitted 1\n", "the replies are others")


@case("an output that is the history, the new file, an input or its own input is no stream")
def no_output(pit, folder):
    texts = SMALL | {"calm": "begin\n"}
    for name in ("history", "history.pit-new", "model", "precedence", "blocks", "calm"):
        lay(folder, texts | {"history": in_two(LOADED)})
        found = once(pit, folder, *LIVE, f"calm:{name}")
        wants(found[0] == 3 and "planner 1 requests 0 entries 0 ended no stream\n" in found[2], f"{name}: {found}")
        is_left(folder, in_two(LOADED))
        for kept, text in texts.items():
            wants(read(folder, kept) == text.encode(), f"{name}: {kept} is changed")


@case("replies go behind what an output file holds")
def appended(pit, folder):
    lay(folder, {"calm": "begin\nabandon\n", "calm.out": "old\n"})
    wants(once(pit, folder, *LIVE, "calm:calm.out")[0] == 1, "it didn't end well")
    wants(read(folder, "calm.out") == b"old\nbegun 1 0\nabandoned\n", "the replies are others")


@case("words that aren't two paths are refused")
def refused_words(pit, folder):
    for words in ((*LIVE, "calm"), (*LIVE, ":calm"), (*LIVE, "calm:"), (*LIVE, *["a:b"] * 65), LIVE[:-2]):
        found = once(pit, folder, *words)
        wants(found[0] == 2 and found[1] == "" and found[2], f"{words[-1]}: {found}")
        wants(read(folder, "history") is None, "a history is made")


@case("a planner who doesn't come, and one who goes without reading, hold up nobody")
def gone(pit, folder):
    sitting = Sitting(pit, folder, planners=2)
    one, two = sitting.planners
    asks(two, "value > value 0 0.000000000000000000")
    os.close(two.taken)
    two.taken = None
    two.send("begin\n")
    asks(one, "begin > begun 1 0", "put 3 1 > ok", "commit > committed 1")
    status, said = sitting.ended()
    wants(status == 3 and "planner 2 requests 1 entries 0 ended output\n" in said, f"{status}, {said}")


@case("a line without end takes no memory")
def endless(pit, folder):
    sitting = Sitting(pit, folder)
    planner = sitting.planners[0]
    for _ in range(1600):
        planner.send(b"y" * 65_536)
    planner.send(b"\n")
    wants(planner.reply() == "fault line too long", "the long line has another reply")
    with open(f"/proc/{sitting.process.pid}/status", encoding="utf-8") as told:
        peak = int(next(line for line in told if line.startswith("VmHWM")).split()[1])
    wants(peak < 50_000, f"it took {peak} KB")
    asks(planner, "begin > begun 1 0")
    sitting.ended()


class Session:
    """A planner's session by the rules, over a state that all share."""

    def __init__(self, number, shared):
        self.number, self.shared, self.begun, self.job = number, shared, 0, None

    def due(self, line):
        """The reply to a request."""
        state, pit = self.shared.state, self.shared.pit
        word, *fields = line.split()
        if word == "value":
            return f"value {state.commits} {pit.value(state.schedule)}"
        if (word == "begin") == (self.job is not None):
            return "fault job order"
        if word == "begin":
            self.begun += 1
            self.job = {"start": state.commits, "reads": {}, "writes": {}}
            return f"begun {self.begun} {state.commits}"
        job = self.job
        if word == "read":
            block = int(fields[0])
            known = job["writes"] if block in job["writes"] else job["reads"] if block in job["reads"] else None
            if known is None:
                if state.versions[block] > job["start"]:
                    return f"moved {block} {state.versions[block]}"
                known = job["reads"]
                known[block] = state.schedule[block]
            return f"held {block} {'-' if known[block] is None else known[block]}"
        if word in ("put", "clear"):
            job["writes"][int(fields[0])] = int(fields[1]) if word == "put" else None
            return "ok"
        self.job = None
        if word == "abandon":
            return "abandoned"
        entered = entry("commit", self.number, self.begun, job["start"], None, job["reads"].items(), job["writes"].items())
        entered["reply"] = state.reply(entered)
        self.shared.entries.append(entered)
        return words_of(entered["reply"])


class Shared:
    def __init__(self, pit):
        self.pit, self.state, self.entries = pit, State(pit), []


def drawn_request(pit, draw, session):
    """A request that makes sense, most of the time."""
    if session.job is None and draw.random() < 0.9:
        return draw.choice(["begin", "begin", "begin", "value"])
    block, period = draw.randrange(pit.blocks), draw.randrange(pit.periods)
    return draw.choices(
        [f"read {block}", f"put {block} {period}", f"clear {block}", "commit", "abandon", "value", "begin"], [6, 6, 1, 4, 1, 1, 1]
    )[0]


def due_end(pit, state, planners, opening=""):
    """Status and standard error of a run whose planners, a pair of replies and entries each, have left."""
    loads = pit.loads(state.schedule)
    short = [
        f"short {resource} {period} {decimal(load)} {decimal(pit.lowers[resource, period])}"
        for (resource, period), load in loads.items() if load < pit.lowers.get((resource, period), load)
    ]
    said = [f"planner {k} requests {replies} entries {entries} ended input" for k, (replies, entries) in enumerate(planners, 1)]
    return (1 if short else 0), opening + lines([*said, f"value {pit.value(state.schedule)}", *short])


def drawn_session(program, folder, seed):
    draw = random.Random(seed)
    pit = Pit(draw)
    lay(folder, pit.texts())
    shared = Shared(pit)
    planners = draw.choice([1, 2, 8])
    sitting = Sitting(program, folder, planners=planners)
    sessions = [Session(k, shared) for k in range(1, planners + 1)]
    replies = [0] * planners
    for _ in range(draw.randint(0, 150)):
        k = draw.randrange(planners)
        line = drawn_request(pit, draw, sessions[k])
        due = sessions[k].due(line)
        found = sitting.planners[k].ask(line)
        wants(found == due, f"planner {k + 1}, {line}: {found!r}, wanted {due!r}")
        replies[k] += 1
    counts = [(replies[k], sum(each["planner"] == k + 1 for each in shared.entries)) for k in range(planners)]
    status, said = due_end(pit, shared.state, counts, f"history new\nlive {planners} planners 0 commits 0 entries\n")
    ends(sitting, status, said)
    is_left(folder, in_two(shared.entries))


def busy(planner, blocks, seed, told, until):
    """Asks until so many commits were answered. Keeps each reply of a commit with its number of `begun`."""
    draw = random.Random(seed)
    while len(told) < until:
        number = int(planner.ask("begin").split()[1])
        for block in draw.sample(range(blocks), 2):
            held = planner.ask(f"read {block}")
            if held.startswith("held"):
                planner.ask(f"put {block} {draw.randrange(2)}" if held.endswith("-") else f"clear {block}")
        told.append((number, planner.ask("commit")))


def at_once(program, folder, planners, until):
    draw = random.Random(planners)
    pit = Pit(draw)
    pit.preds, pit.uppers, pit.lowers = {}, {}, {}
    pit.blocks = max(pit.blocks, 4)
    lay(folder, pit.texts())
    sitting = Sitting(program, folder, planners=planners)
    told = [[] for _ in range(planners)]
    threads = [threading.Thread(target=busy, args=(sitting.planners[k], pit.blocks, k, told[k], until)) for k in range(planners)]
    for thread in threads:
        thread.start()
    for thread in threads:
        thread.join()
    status, _ = sitting.ended()
    wants(status == 0, f"status {status}")
    history = read(folder, "history")
    entries = entries_of(history)
    state = State(pit)
    for number, each in enumerate(entries, 1):
        wants(state.reply(each) == each["reply"], f"entry {number} has another reply than is due")
    for k in range(planners):
        own = [(each["job"], words_of(each["reply"])) for each in entries if each["planner"] == k + 1]
        wants(own == told[k], f"planner {k + 1} was told something else than the history has")
    replayed = once(program, folder, "replay", "model", "precedence", "history")
    wants(replayed == (0, f"legal {len(entries)} {state.commits}\nvalue {pit.value(state.schedule)}\n", ""), f"replay: {replayed}")


def tried(about, again, function, *words):
    folder = tempfile.mkdtemp()
    try:
        function(os.path.abspath(sys.argv[1]), folder, *words)
    except (Wrong, Silent, OSError, subprocess.SubprocessError) as what:
        judge.wrong(about, what, again)
    else:
        judge.well(about)
    finally:
        shutil.rmtree(folder)


def small(function):
    def laid(program, folder):
        lay(folder, SMALL)
        function(program, folder)
    return laid


def main():
    if not 2 <= len(sys.argv) <= 4:
        sys.exit(__doc__.split("\n\n")[1])
    runs, seed = [int(word) for word in sys.argv[2:]] + [30, 1][len(sys.argv) - 2:]
    for about, function in CASES:
        tried(about, AGAIN, small(function))
    for number in range(seed, seed + runs):
        tried(f"a drawn session, seed {number}", f"{AGAIN} 1 {number}", drawn_session, number)
    for planners in (8, 64):
        tried(f"{planners} planners at once", AGAIN, at_once, planners, 200 // planners + 5)
    judge.judged()


if __name__ == "__main__":
    main()
