"""What a person at a terminal is told of files that can't be read or written, and of faults that stand in no line of a file."""
import dataclasses

from explain import FILES, HEAD, LIMITS, both, history, told

OF_FILES = [
    told("no such file", "value hill.cpit hill.sol", [
        "pit: cannot read solution",
        "  hill.sol",
        "  There is no such file.",
    ], status=3),
    told("a folder", "value hill.cpit .", [
        "pit: cannot read solution",
        "  .",
        "  It is a folder.",
    ], status=3),
    told("a file for a folder", "value hill.cpit empty/hill.sol", [
        "pit: cannot read solution",
        "  empty/hill.sol",
        "  The system can't read it.",
    ], status=3),
    told("a limit below zero", "replay hill.cpit hill.prec hill.history", [
        "pit: model: upper limit below zero 0 1",
        "  hill.cpit",
        "  Not even the empty schedule keeps an upper limit below zero: look at the limits of this resource and period.",
    ], {"hill.cpit": HEAD + LIMITS + b"0 1 L -1\n", "hill.history": history()}),
    told("a script too many", "plan hill.cpit hill.prec" + " empty" * 65, [
        "pit: planner count",
        "  A plan has 1 to 64 scripts: put several into one.",
    ]),
    told("a history in no folder", "plan hill.cpit hill.prec --history nowhere/new.history empty", [
        "pit: cannot write",
        "  nowhere/new.history",
        "  Its folder isn't there.",
    ], status=3),
    told("a folder for a history", "plan hill.cpit hill.prec --history . empty", [
        "pit: cannot write",
        "  .",
        "  It is a folder.",
    ], status=3),
    told("a device that is full", "plan hill.cpit hill.prec --history /dev/full empty", [
        "value 0.000000000000000000",
        "short 0 1 0.000000 1.000000",
        "pit: cannot write",
        "  Standard output or the history /dev/full couldn't be written: is there room, and may you write there?",
    ], status=3),
    dataclasses.replace(told("an output that is full", "value hill.cpit empty", [
        "pit: cannot write",
        "  Standard output couldn't be written: is the device full, or its reader gone?",
    ], status=3), into="/dev/full"),
    told("a history that is a script too", "plan hill.cpit hill.prec --history new.history new.history", [
        "pit: history is an input",
        "  new.history",
        "  It is read as an input too: name another file, or carry it on with `--continue`.",
    ], {"new.history": b""}),
]

CASES = both(OF_FILES)
