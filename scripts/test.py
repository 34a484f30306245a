#!/usr/bin/env python3
"""Runs the tests: each Rattle test without a proof, and each shell test on a program, as many at once as there are processors and memory for.

usage: scripts/test.py                  all of them, on ./pit where it is newer than its sources, else on a program that is compiled without a proof
       scripts/test.py --shell [NAME]   the shell tests on ./pit, or the one of that name, which is also that of its parts

Each test has a line when it has ended, and says under it what failed, and the command that repeats it alone; what was left out is named at the end. The
last line is 'N passed, N failed, N skipped', and the status 1 where one failed. A Rattle test is one by itself, and so is each case of a shell test.
"""
import concurrent.futures
import os
import re
import shutil
import signal
import subprocess
import sys
import tempfile
import time

TOP = os.path.dirname(os.path.dirname(os.path.abspath(__file__)))
#: What `rt try --test` takes at most of a crate, in kilobytes.
MEMORY_OF_TESTS = 3000000
#: How long a Rattle test may take, in seconds.
LONGEST = 600
#: The crates whose tests take longest.
FIRST = ["test_views", "test_desk", "test_run", "test_text", "test_surface", "test_share"]
UNPROVED = "pit-unproved"
#: How much is shown of a line on what failed, in characters.
SHOWN = 500


#: How long a test may take at all, in seconds: one that hangs has failed.
HANGS = 1800
#: The commands at work, each in a session of its own.
AT_WORK = set()


def told(words, folder=TOP):
    """The status of a command, and what it said. One that hangs is ended, with all that it has begun."""
    ran = subprocess.Popen(words, cwd=folder, stdin=subprocess.DEVNULL, stdout=subprocess.PIPE, stderr=subprocess.STDOUT, start_new_session=True)
    AT_WORK.add(ran.pid)
    late = ""
    try:
        said, _ = ran.communicate(timeout=HANGS)
    except subprocess.TimeoutExpired:
        os.killpg(ran.pid, signal.SIGKILL)
        said, _ = ran.communicate()
        late = f"\nended after {HANGS} seconds"
    AT_WORK.discard(ran.pid)
    return ran.returncode, said.decode("utf-8", "replace") + late


def give_up(number, _):
    """Ends all that is at work, and then this program: by Ctrl-C, or where it is told to end."""
    for pid in list(AT_WORK):
        try:
            os.killpg(pid, signal.SIGKILL)
        except ProcessLookupError:
            pass
    for folder in TO_REMOVE:
        shutil.rmtree(folder, ignore_errors=True)
    os._exit(128 + number)


#: What is removed at the end, however that comes.
TO_REMOVE = []


class Result:
    """What became of a test: how many of its cases passed and failed, and the lines on those that failed or were left out."""

    def __init__(self, name, passed, failed, why, skipped=()):
        self.name, self.passed, self.failed, self.why, self.skipped = name, passed, failed, why, skipped

    def line(self, seconds):
        """The test's line, with what failed under it."""
        counts = f"{self.passed} passed, {self.failed} failed, {len(self.skipped)} skipped"
        return f"{'FAIL ' if self.failed else 'ok   '} {self.name}: {counts}, {seconds:.0f} s" + "".join(f"\n      {it[:SHOWN]}" for it in self.why)


def rattle_test(rt, tree, crate):
    """The tests of a crate, in a tree that the crates of audit/tests are laid into."""
    status, said = told([rt, "try", "--test", "--seconds", str(LONGEST)], f"{tree}/crates/{crate}")
    found = re.findall(r"^test (\S+) \.\.\. (.*)$", said, re.M)
    failed = [name for name, how in found if how != "ok"]
    passed = len(found) - len(failed)
    counted = re.search(r"^tests: (\d+)$", said, re.M)
    if status == 0 and counted and int(counted[1]) == passed and passed:
        return Result(crate, passed, 0, [])
    lost = max(int(counted[1]) - len(found), 0) if counted else 0
    why = [*said.splitlines()[-20:], f"alone: scripts/lay_out.sh TREE, and in TREE/crates/{crate} rt try --test"]
    return Result(crate, passed, max(len(failed) + lost, 1), [f"FAIL  {it}" for it in failed] + why)


def shell_test(program, name, command):
    """A shell test on a program."""
    status, said = told(["bash", "-c", command.replace("{}", f"'{program}'")])
    lines = said.splitlines()
    counts = re.fullmatch(r"(\d+) passed, (\d+) failed, (\d+) skipped", lines[-1]) if lines else None
    skipped = [f"{name}: {it[6:]}" for it in lines if it.startswith("skip  ")]
    passed, failed = (int(counts[1]), int(counts[2])) if counts else (0, 0)
    # One that counts nothing, or not as its status says, has come to no end.
    if (status == 0) != (failed == 0) or not passed + failed + len(skipped):
        failed = max(failed, 1)
    seeds = [it for it in lines if it.startswith("seed ")]
    if not failed:
        return Result(name, passed, 0, seeds, skipped)
    at = [number for number, it in enumerate(lines) if it.startswith("FAIL")]
    shown = [it for number, it in enumerate(lines) if any(n <= number < n + 12 for n in at)][:200] or lines[-20:]
    return Result(name, passed, failed, [*seeds, *shown, f"alone: {command.replace('{}', os.path.relpath(program, TOP))}"], skipped)


def listed():
    """The shell tests: of each its name and its command."""
    with open(f"{TOP}/tests/list.txt", encoding="utf-8") as file:
        rows = [it.rstrip("\n").split("|") for it in file if it.strip() and not it.startswith("#")]
    return [(name, command) for name, command, _ in rows]


def run_all(tests, lanes):
    """Runs tests, begun in the order given, so many at once, and prints a line for each that has ended."""
    results = []

    def one(test):
        began = time.monotonic()
        return test(), time.monotonic() - began

    with concurrent.futures.ThreadPoolExecutor(lanes) as pool:
        running = [pool.submit(one, it) for it in tests]
        for done in concurrent.futures.as_completed(running):
            result, seconds = done.result()
            results.append(result)
            print(result.line(seconds), flush=True)
    return results


def close(results, proved):
    """Says what was left out, and the counts, and ends with the status."""
    skipped = [it for result in results for it in result.skipped]
    if skipped:
        print("Left out:")
        for it in skipped:
            print(f"skip  {it}")
    passed, failed = sum(it.passed for it in results), sum(it.failed for it in results)
    if len(skipped) * 20 > passed + failed + len(skipped):
        print("FAIL  more than 5 in 100 are left out")
        failed += 1
    if not proved:
        print("Nothing is proved by this: `make gate` proves it.")
    print(f"{passed} passed, {failed} failed, {len(skipped)} skipped", flush=True)
    sys.exit(1 if failed else 0)


def is_new():
    """Whether ./pit is there, and newer than its sources."""
    return subprocess.call(["make", "-q", "pit"], cwd=TOP, stdout=subprocess.DEVNULL, stderr=subprocess.DEVNULL) == 0


def at_once(memory):
    """How many of what takes so much memory may run at once."""
    with open("/proc/meminfo", encoding="ascii") as file:
        free = next(int(it.split()[1]) for it in file if it.startswith("MemAvailable"))
    return max(min(os.cpu_count(), len(os.sched_getaffinity(0)), free // memory), 1)


def shell_alone(shell, name):
    """The shell tests on ./pit, or the one of that name."""
    wanted = [it for it in shell if name in (None, it[0], re.sub(r"-\d+$", "", it[0]))]
    if not wanted:
        sys.exit(f"{name} is none of the shell tests {' '.join(sorted({re.sub('-[0-9]+$', '', it) for it, _ in shell}))}")
    if any("{}" in command for _, command in wanted):
        if not os.access(f"{TOP}/pit", os.X_OK):
            sys.exit("there is no ./pit: `make pit` or `make gate` leaves it; `make test` takes a program without a proof")
        if not is_new():
            print("note: a source is newer than ./pit", flush=True)
    close(run_all([lambda it=it: shell_test(f"{TOP}/pit", *it) for it in wanted], at_once(500000)), True)


def main():
    words = sys.argv[1:]
    for number in (signal.SIGINT, signal.SIGTERM, signal.SIGHUP):
        signal.signal(number, give_up)
    shell = listed()
    if words[:1] == ["--shell"] and len(words) <= 2:
        shell_alone(shell, words[1] if len(words) == 2 else None)
    if words:
        sys.exit(__doc__.split("\n\n")[1])

    work = tempfile.mkdtemp(prefix="pit-test-")
    TO_REMOVE.append(work)
    try:
        tree, rt = f"{work}/tree", f"{work}/kit/bin/rt"
        os.environ["RT"] = rt
        for step in ([f"{TOP}/scripts/kit.sh", f"{work}/kit"], [f"{TOP}/scripts/lay_out.sh", tree]):
            status, said = told(step)
            if status:
                sys.exit(said)
        has_test = lambda crate: subprocess.call(["grep", "-rqE", r"^ *#\[test\]", f"{tree}/crates/{crate}/src"]) == 0
        crates = [it for it in sorted(os.listdir(f"{tree}/crates")) if has_test(it)]
        crates.sort(key=lambda it: FIRST.index(it) if it in FIRST else len(FIRST))
        proved = is_new()
        program = f"{TOP}/{'pit' if proved else UNPROVED}"
        print(f"Runs the tests of {len(crates)} crates without a proof, and {len(shell)} shell tests on ./{os.path.basename(program)}.", flush=True)

        made = concurrent.futures.Future()

        def compiled():
            status, said = 1, ""
            try:
                status, said = (0, "") if proved else told(["make", "--no-print-directory", UNPROVED])
            finally:
                made.set_result(status == 0)
            return Result("the program", 0, int(status != 0), said.splitlines()[-20:] if status else [])

        def on_it(it):
            return shell_test(program, *it) if "{}" not in it[1] or made.result() else Result(it[0], 0, 1, ["there is no program"])

        # The program is begun first, so no test that waits for it keeps it waiting.
        tests = [compiled, *[lambda it=it: rattle_test(rt, tree, it) for it in crates], *[lambda it=it: on_it(it) for it in shell]]
        results = run_all(tests, at_once(MEMORY_OF_TESTS))
        close(results, False)
    finally:
        shutil.rmtree(work, ignore_errors=True)


if __name__ == "__main__":
    main()
