#!/usr/bin/env python3
"""Kills a built `pit live`, and refuses its calls: what was told as committed is in the file, and the rest of that is a beginning of one history.

usage: tests/live_kills.py PIT [KILLS [SEED]]      20 kills at drawn moments from seed 1, where these aren't said. Wants a C compiler

A kill comes at a drawn moment while 1 to 16 planners ask as fast as they can. Then each call by which one planner's session opens, locks, writes, syncs,
renames or removes the history's file or the new one beside it is refused in turn, and the program is killed before each in turn; and the order of these calls
is looked at. What is left is carried on by `live` and by `plan`, and gone over by `replay`. Ends with status 1 where something isn't so.
"""
import json
import os
import random
import subprocess
import sys
import tempfile
import threading
import time

HERE = os.path.dirname(os.path.abspath(__file__))
sys.dont_write_bytecode = True
sys.path[:0] = [HERE, os.path.join(HERE, "worked"), os.path.join(HERE, "..", "audit")]
import judge  # noqa: E402
from live import SMALL, lay, once, read, tried  # noqa: E402
from sitting import PATIENCE, Silent, Sitting  # noqa: E402
from soak import Pit, State, lines, wants, words_of  # noqa: E402

AGAIN = "tests/live_kills.py ./pit"
#: The requests of the one planner whose program is refused its calls, and what comes of them.
ASKED = ["begin", "put 3 1", "commit", "begin", "put 3 0", "commit", "begin", "read 3", "put 3 1", "commit"]
TOLD = ["begun 1 0", "ok", "committed 1", "begun 2 1", "ok", "committed 2", "begun 3 2", "held 3 0", "ok", "committed 3"]
LIVE = ("live", "model", "precedence", "--blocks", "blocks", "--continue", "kept")
#: No session makes so many calls.
CALLS_MAX = 80


def whole_entries(history):
    """The entries of the whole lines of a text, behind the first; and whether the last line is torn."""
    *whole, rest = history.decode().split("\n")
    return [json.loads(line) for line in whole[1:]], bool(rest)


def is_beginning(pit, entries):
    state = State(pit)
    for number, each in enumerate(entries, 1):
        wants(state.reply(each) == each["reply"], f"entry {number} isn't due")
    return state


def goes_on(program, folder, name, entries, commits):
    """The next sessions and plans find the entries, and no more."""
    lay(folder, {"script": "begin\ncommit\n"})
    status, out, said = once(program, folder, "live", "model", "precedence", "--continue", name)
    wants(status in (0, 1) and f"live 1 planners {commits} commits {entries} entries\n" in said, f"live: {status}, {said}")
    wants(os.listdir(folder).count(name + ".pit-new") == 0, "a new file is left")
    status, out, _ = once(program, folder, "replay", "model", "precedence", name)
    wants(status == 0 and out.startswith(f"legal {entries} {commits}\n"), f"replay: {status}, {out}")
    status, _, said = once(program, folder, "plan", "model", "precedence", "--continue", name, "script")
    wants(status in (0, 1) and f"committed {commits + 1} tries" in said, f"plan: {status}, {said}")


def busy(planner, blocks, draw, told):
    """Asks until nobody answers. Keeps what was told of each commit, with its number of `begun`."""
    try:
        while True:
            begun = planner.ask("begin")
            if begun is None:
                return
            planner.ask(f"put {draw.randrange(blocks)} {draw.randrange(2)}")
            ended = planner.ask("commit")
            if ended is None:
                return
            told.append((int(begun.split()[1]), ended))
    except (Silent, OSError):
        return


def killed(program, folder, seed):
    draw = random.Random(seed)
    pit = Pit(draw)
    pit.preds, pit.uppers, pit.periods = {}, {}, max(pit.periods, 2)
    pit.lowers = {}
    lay(folder, pit.texts())
    planners = draw.choice([1, 4, 16])
    sitting = Sitting(program, folder, planners=planners)
    told = [[] for _ in range(planners)]
    threads = [threading.Thread(target=busy, args=(sitting.planners[k], pit.blocks, random.Random(seed * 64 + k), told[k])) for k in range(planners)]
    for thread in threads:
        thread.start()
    time.sleep(0.05 + draw.random() * 0.3)
    sitting.process.kill()
    sitting.process.wait(PATIENCE)
    for thread in threads:
        thread.join()
    sitting.kill()
    history = read(folder, "history")
    if history is None:
        wants(not any(told), "something was told, and there is no file")
        return
    entries, _ = whole_entries(history)
    state = is_beginning(pit, entries)
    kept = {(each["planner"], each["job"], words_of(each["reply"])) for each in entries}
    for k in range(planners):
        for number, ended in told[k]:
            wants((k + 1, number, ended) in kept, f"planner {k + 1}, job {number} was told {ended}, and isn't in the file")
    goes_on(program, folder, "history", len(entries), state.commits)


def preloaded(program, folder, **environment):
    """The session with the library that refuses calls: status, the replies that came whole, standard error, and the calls that were written down."""
    calls = os.path.join(folder, "calls")
    if os.path.exists(calls):
        os.remove(calls)
    done = subprocess.run(
        [program, *LIVE], cwd=folder, input=lines(ASKED).encode(), capture_output=True, timeout=PATIENCE, check=False,
        env={**os.environ, "LD_PRELOAD": os.path.join(LIBRARY, "fault.so"), "CALLS": calls, **environment},
    )
    with open(calls, "a+", encoding="utf-8") as file:
        file.seek(0)
        noted = [tuple(line.split()) for line in file]
    return done.returncode, done.stdout.decode().split("\n")[:-1], done.stderr.decode(), noted


def session_calls(calls):
    """The calls of the journal: those behind the second making of the new file."""
    made = [at for at, each in enumerate(calls) if each[:2] in (("open", "kept.pit-new"), ("open64", "kept.pit-new"))]
    return calls[made[1]:] if len(made) > 1 else []


def told_of(replies):
    return [reply for reply in replies if reply.startswith(("committed", "refused"))]


def refused_calls(program, folder):
    refused = 0
    for at in range(1, CALLS_MAX):
        lay(folder, SMALL)
        for name in ("kept", "kept.pit-new"):
            if os.path.exists(os.path.join(folder, name)):
                os.remove(os.path.join(folder, name))
        status, replies, said, calls = preloaded(program, folder, FAULT_AT=str(at))
        entries, _ = whole_entries(read(folder, "kept") or b"")
        state = is_beginning(SMALL_PIT, entries)
        wants(len(told_of(replies)) <= len(entries), f"call {at}: {replies}, and the file has {len(entries)} entries")
        for reply, due in zip(replies, TOLD):
            wants(reply in (due, f"unsaved {due}", "fault journal", "fault job order"), f"call {at}: {replies}")
        if status == 3:
            refused += 1
            faults = ("pit: cannot write\n", "pit: cannot read history\n")
            # A fault before a planner is served stands alone.
            wants(said.endswith(faults) if replies else said in faults, f"call {at}: {said}")
        else:
            wants(status == 0 and told_of(replies) == ["committed 1", "committed 2", "committed 3"], f"call {at}: status {status}, {replies}")
        left = os.path.join(folder, "kept.pit-new")
        if os.path.exists(left):
            os.remove(left)
        if read(folder, "kept") is not None:
            goes_on(program, folder, "kept", len(entries), state.commits)
    wants(refused > 12, f"{refused} calls are refused")


def killed_calls(program, folder):
    kills = 0
    for at in range(1, CALLS_MAX):
        lay(folder, SMALL)
        for name in ("kept", "kept.pit-new"):
            if os.path.exists(os.path.join(folder, name)):
                os.remove(os.path.join(folder, name))
        status, replies, _, calls = preloaded(program, folder, FAULT_AT=str(at), FAULT_KILLS="1")
        if status != -9:
            break
        kills += 1
        entries, _ = whole_entries(read(folder, "kept") or b"")
        state = is_beginning(SMALL_PIT, entries)
        synced = sum(call[0] in ("fsync", "fdatasync") and call[1] == "kept" for call in session_calls(calls))
        wants(len(told_of(replies)) <= min(len(entries), synced), f"call {at}: {replies}, with {len(entries)} entries and {synced} syncs")
        if read(folder, "kept") is not None:
            goes_on(program, folder, "kept", len(entries), state.commits)
    wants(kills > 12, f"it is killed {kills} times")


def calls_in_order(program, folder):
    lay(folder, SMALL)
    status, replies, said, calls = preloaded(program, folder)
    wants((status, replies) == (0, TOLD), f"{status}, {replies}, {said}")
    syncs = ("fsync", "fdatasync")
    names = [call for call in calls if call[0] in ("write", *syncs, "flock", "rename", "unlink")]
    at = names.index(("rename", "kept.pit-new", "kept"))
    wants(names[at - 1][0] in syncs and names[at - 1][1] == "kept.pit-new", f"the new file isn't synced before it is renamed: {names}")
    wants(names[at + 1][0] in syncs and names[at + 1][1] == os.path.basename(folder), f"the folder isn't synced behind the renaming: {names}")
    wants(names[at + 2] == ("flock", "kept.pit-new"), f"the new file isn't locked once more: {names}")
    wants(names[-1] == ("unlink", "kept.pit-new"), f"the new file isn't removed last: {names}")
    journal = [call[0] for call in names[at + 3 :] if call[1] == "kept"]
    parts = [sum(name in syncs for name in journal[:end]) for end in range(len(journal)) if journal[end] == "write"]
    wants(sorted(set(parts)) == [0, 1, 2] and journal[-1] in syncs, f"there is no sync behind each entry: {journal}")


def main():
    global LIBRARY, SMALL_PIT
    if not 2 <= len(sys.argv) <= 4:
        sys.exit(__doc__.split("\n\n")[1])
    kills, seed = [int(word) for word in sys.argv[2:]] + [20, 1][len(sys.argv) - 2:]
    LIBRARY = tempfile.mkdtemp()
    subprocess.run([os.environ.get("CC", "cc"), "-shared", "-fPIC", "-o", os.path.join(LIBRARY, "fault.so"), os.path.join(HERE, "history", "fault.c"), "-ldl"], check=True)
    SMALL_PIT = small_pit()
    for number in range(seed, seed + kills):
        tried(f"killed at a drawn moment, seed {number}", f"{AGAIN} 1 {number}", killed, number)
    tried("each call is refused in turn", AGAIN, refused_calls)
    tried("it is killed before each call in turn", AGAIN, killed_calls)
    tried("its calls stand in order", AGAIN, calls_in_order)
    judge.judged()


def small_pit():
    """The small pit by the rules."""
    pit = Pit(random.Random(1))
    pit.blocks, pit.periods, pit.resources, pit.rate = 4, 2, 1, 100_000
    pit.profits = [-10_000_000, 20_500_000, 30_000_000, 5_000_000]
    pit.coefs = {(0, 0): 2_000_000, (1, 0): 2_000_000, (2, 0): 3_000_000, (3, 0): 1_000_000}
    pit.uppers, pit.lowers = {(0, 0): 4_000_000, (0, 1): 4_000_000}, {(0, 1): 1_000_000}
    pit.preds, pit.heights = {1: [0], 2: [0, 1]}, [2, 1, 0, 2]
    return pit


if __name__ == "__main__":
    main()
