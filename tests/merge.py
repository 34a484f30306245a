#!/usr/bin/env python3
"""Has a built `pit` merge edits that are drawn from seeds, and compares all that it writes with a plain program that merges block by block.

usage: tests/merge.py PIT [RUNS [SEED]]      300 merges from seed 1, where these aren't said

A merge begins with nothing, with a solution, or with a history, which it may carry on. It has 1 to 6 edits: solutions, some behind the first line that
`pit show` writes, with a carriage return, with another sum, or further down; and histories that went on from a front of the one here, with refusals and,
seldom, with revised limits. Solution, report, status and history have to be those that are computed here, or else the fault that comes first. Ends with
status 1 where a merge isn't so, and says the seed that makes it again. Each merge is a case.
"""
import hashlib
import json
import os
import random
import sys
import tempfile

HERE = os.path.dirname(os.path.abspath(__file__))
sys.path[:0] = [HERE, os.path.join(HERE, "..", "audit")]
import judge  # noqa: E402
from soak import (  # noqa: E402
    Pit, State, Wrong, call, cause, decimal, drawn_job, history_text, in_turn, lines, opening, read, run, solution_text, wants, words_of, write,
)


def drawn_scripts(pit, draw, revises):
    """Scripts of one to three planners, whose jobs revise limits or don't."""
    scripts = []
    for _ in range(draw.randint(1, 3)):
        jobs = [drawn_job(pit, draw) for _ in range(draw.randint(0, 4))]
        scripts.append([[line for line in job if revises or line[0] != "revise"] for job in jobs])
    return scripts


def commits_of(entries):
    return [entry for entry in entries if "committed" in entry["reply"]]


def left_by(pit, entries, count):
    """The schedule that the first of the commits leave."""
    schedule = [None] * pit.blocks
    for entry in commits_of(entries)[:count]:
        for block, period in entry["writes"]:
            schedule[block] = period
    return schedule


def sum_of(entries, count):
    """The sum of the entries up to this commit, which isn't one of fewer entries."""
    front, left = [], count
    for entry in entries:
        if left == 0:
            break
        front.append(entry)
        left -= "committed" in entry["reply"]
    text = lines(json.dumps(entry, sort_keys=True, separators=(",", ":")) for entry in front)
    return hashlib.sha256(text.encode()).hexdigest()


def edited(pit, draw, schedule):
    """The schedule with a few blocks in other periods."""
    wanted = list(schedule)
    for _ in range(draw.choice([0, 1, 1, 2, 3, 6])):
        wanted[draw.randrange(pit.blocks)] = draw.choice([None, *range(pit.periods)])
    return wanted


def pairs(schedule):
    return {block: period for block, period in enumerate(schedule) if period is not None}


class Edit:
    """The text of an edit, the schedule that it wants, how many commits it was made from, and its fault if it has one."""

    def __init__(self, text, wanted, start, fault=None):
        self.text, self.wanted, self.start, self.fault = text, wanted, start, fault


def drawn_edit(pit, draw, begun, is_resumed, asked):
    """An edit of what is begun with, where `--from` asks for so many commits, or for none."""
    commits = len(commits_of(begun))
    if draw.random() < 0.25:
        shared = draw.randint(0, len(begun))
        theirs = in_turn(pit, begun[:shared], drawn_scripts(pit, draw, draw.random() < 0.2))
        while shared < min(len(begun), len(theirs)) and begun[shared] == theirs[shared]:
            shared += 1
        revised = any(entry["revises"] for entry in commits_of(theirs[shared:]))
        start = len(commits_of(theirs[:shared]))
        return Edit(history_text(theirs), left_by(pit, theirs, len(theirs)), start, "revised limit" if revised else None)
    made_from = draw.randint(0, commits)
    wanted = edited(pit, draw, left_by(pit, begun, made_from))
    text = solution_text(pairs(wanted))
    if draw.random() < 0.6:
        said, digits = made_from, sum_of(begun, made_from)
        fault = None
        kind = draw.random()
        if kind < 0.05:
            said, fault = commits + 1, "another history"
        elif kind < 0.1:
            digits, fault = digits[1:] + digits[0], "another history"
            fault = fault if digits != sum_of(begun, made_from) else None
        mark = f"% commits {said} sum {digits}"
        if kind > 0.97 and text:
            return plain(text + mark + "\n", wanted, commits, is_resumed, asked)
        if kind > 0.94:
            return plain(mark.replace("sum", "Sum") + "\n" + text, wanted, commits, is_resumed, asked)
        return Edit(mark + draw.choice(["\n", "\n", "\r\n"]) + text, wanted, made_from, fault)
    return plain(text, wanted, commits, is_resumed, asked)


def plain(text, wanted, commits, is_resumed, asked):
    """A solution that doesn't say what it was made from."""
    if asked is None:
        return Edit(text, wanted, commits, "base missing" if is_resumed else None)
    return Edit(text, wanted, asked, f"{commits} commits" if asked > commits else None)


def told(period):
    return "-" if period is None else str(period)


def merged(pit, begun, edits, is_partial):
    """The entries, the lines of the report, and whether each edit was merged whole; block by block."""
    state, entries, report, is_whole = State(pit), list(begun), [], True
    for entry in begun:
        state.reply(entry)
    for number, edit in enumerate(edits, 1):
        base, held, versions = left_by(pit, begun, edit.start), list(state.schedule), list(state.versions)
        changes = [block for block in range(pit.blocks) if edit.wanted[block] not in (base[block], held[block])]
        late = [block for block in changes if versions[block] > edit.start]
        left = late if is_partial else []
        kept = [block for block in changes if block not in left]
        makers = [place for place, entry in enumerate(entries, 1) if "committed" in entry["reply"]]
        at, why, words, reply = "-", "-", "nothing", {}
        if kept:
            entry = {"planner": number, "job": 1, "start": edit.start}
            entry |= call("commit", {block: base[block] for block in kept}, {block: edit.wanted[block] for block in kept}, {})
            reply = state.reply(entry)
            entries.append(entry | {"reply": reply})
            at = len(entries)
            why, words = cause(entries, at), words_of(reply)
        report.append(f"edit {number} entry {at} changes {len(changes)} left {len(left)} cause {why} {words}")
        for block in late if is_partial or "moved" in reply else []:
            maker = makers[versions[block] - 1]
            report.append(f"conflict {number} {block} base {told(base[block])} now {told(held[block])} entry {maker} wanted {told(edit.wanted[block])}")
        is_whole = is_whole and not left and (not kept or "committed" in reply)
    loads = pit.loads(state.schedule)
    short = [
        f"short {resource} {period} {decimal(load)} {decimal(pit.lowers[resource, period])}"
        for (resource, period), load in loads.items()
        if load < pit.lowers.get((resource, period), load)
    ]
    return entries, [*report, f"value {pit.value(state.schedule)}", *short], is_whole, pairs(state.schedule)


def standing(pit, entries):
    """What entries leave that get the replies which are due."""
    state = State(pit)
    for entry in entries:
        state.reply(entry)
    return state


def drawn_merge(pit_path, draw):
    """One merge, compared."""
    pit = Pit(draw)
    for name, text in pit.texts().items():
        write(name, text)
    for name in ("history", "kept"):
        if os.path.exists(name):
            os.remove(name)
    entries = in_turn(pit, [], drawn_scripts(pit, draw, draw.random() < 0.3))
    way = draw.choice(["nothing", "solution", "history", "history", "continue", "new"])
    begun, words, is_resumed = [], ["--history", "kept"], False
    if way == "solution":
        solution = pairs(standing(pit, [entry for entry in entries if not entry["revises"]]).schedule)
        write("start", solution_text(solution))
        begun, words = opening(solution), ["--start", "start", *words]
    elif way == "history":
        write("start", history_text(entries))
        begun, words, is_resumed = entries, ["--start", "start", *words], True
    elif way == "continue":
        write("kept", history_text(entries))
        begun, words, is_resumed = entries, ["--continue", "kept"], True
    elif way == "new":
        words = ["--continue", "kept"]
    before = read("kept")
    asked = draw.choice([None, *range(len(commits_of(begun)) + 2)])
    is_partial = draw.random() < 0.5
    edits = [drawn_edit(pit, draw, begun, is_resumed, asked) for _ in range(draw.randint(1, 6))]
    for number, edit in enumerate(edits, 1):
        write(f"edit{number}", edit.text)
    words += ["--partial"] * is_partial + (["--from", str(asked)] if asked is not None else [])
    status, out, said = run(pit_path, "merge", "model", "precedence", *words, *[f"edit{number}" for number in range(1, len(edits) + 1)])
    wants(read("kept.pit-new") is None, "a new file is left")
    for number, edit in enumerate(edits, 1):
        if edit.fault:
            wants((status, out, said.decode()) == (2, b"", f"pit: edit {number}: {edit.fault}\n"), f"{words}: status {status}, {said}, wanted {edit.fault} of edit {number}")
            wants(read("kept") == before, "a merge that is refused changes the history")
            return
    entries, report, is_whole, solution = merged(pit, begun, edits, is_partial)
    report = ["history new"] * (way == "new") + report
    wants(said.decode() == lines(report), f"{words}: {said.decode()}, wanted {lines(report)}")
    wants(status == (0 if is_whole else 1), f"{words}: status {status}")
    wants(out.decode() == solution_text(solution), f"{words}: another solution")
    wants(read("kept").decode() == history_text(entries), f"{words}: another history")


def main():
    if len(sys.argv) < 2 or not os.access(sys.argv[1], os.X_OK):
        sys.exit("usage: tests/merge.py PIT [RUNS [SEED]]")
    pit_path = os.path.realpath(sys.argv[1])
    runs = int(sys.argv[2]) if len(sys.argv) > 2 else 300
    first = int(sys.argv[3]) if len(sys.argv) > 3 else 1
    done = 0
    with tempfile.TemporaryDirectory() as work:
        os.chdir(work)
        for seed in range(first, first + runs):
            try:
                drawn_merge(pit_path, random.Random(seed))
                done += 1
            except Wrong as wrong:
                judge.wrong(f"a merge of seed {seed}", wrong, f"tests/merge.py {sys.argv[1]} 1 {seed}")
        os.chdir("/")
    if done:
        judge.well(f"merges from seed {first}: {done} cases", done)
    judge.judged()


if __name__ == "__main__":
    main()
