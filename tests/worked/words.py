"""Words that are refused, help word for word, files that can't be opened or read, outputs that take nothing, and memory that isn't there."""
import os

import tiny
from case import CLOSED, NOBODY, Folder, Held, Huge, fault, refused, says

VALUE = "37.772727272730000000\n"
FILES = {
    "model": tiny.MODEL.encode(), "precedence": tiny.PRECEDENCES.encode(), "solution": tiny.SOLUTION.encode(), "folder": Folder(),
    "refused": b"no model\n", "script": b"begin\nput 0 0\nput 1 0\ncommit\nbegin\nput 3 0\ncommit\nbegin\nput 3 1\ncommit\n", "kept": tiny.LOADING.encode(),
}
OF = "model precedence"

REFUSED = [
    refused("no words", ""),
    refused("no such subcommand", "valu"),
    refused("no files", "value"),
    refused("one file", "value model"),
    refused("three files", "value model solution solution"),
    refused("plan, no script", f"plan {OF}"),
    refused("plan, retries of 1001", f"plan --retries 1001 {OF} script"),
    refused("plan, retries below zero", f"plan --retries=-1 {OF} script"),
    refused("plan, retries that are no number", f"plan --retries few {OF} script"),
    refused("plan, retries twice", f"plan --retries 1 --retries 2 {OF} script"),
    refused("plan, an option without its file", f"plan {OF} script --start"),
    refused("plan, a history without its file", f"plan {OF} script --history"),
    refused("plan, two histories", f"plan --history one --history two {OF} script"),
    refused("plan, no file to carry on", f"plan {OF} script --continue"),
    refused("plan, two histories to carry on", f"plan --continue one --continue two {OF} script"),
    # Each is refused before a file is opened or made.
    refused("plan, a history to carry on and a start", "plan --continue fresh --start missing missing missing missing", b"--continue"),
    refused("plan, a history to carry on and one that is written", "plan missing missing missing --history=fresh --continue=kept"),
    refused("plan, a history to carry on, a start and one that is written",
            "plan --history fresh --start missing --continue fresh missing missing missing"),
    refused("merge, a history to carry on and one that is written", "merge missing missing --history fresh --continue fresh missing"),
    fault("plan, a start and a history that is written", "plan --history fresh --start missing missing missing missing", "cannot read model"),
    fault("plan, its flags are known", "plan --in-turn --strict missing missing missing", "cannot read model"),
    refused("plan, a flag that is given twice", f"plan --strict --strict {OF} script"),
    refused("plan, a flag with a value", f"plan --in-turn=yes {OF} script"),
    refused("plan, a flag of another subcommand", f"plan --writes {OF} script"),
    refused("log, two files", f"log {OF}"),
    refused("log, four files", f"log {OF} kept kept"),
    fault("log, its flag is known", "log --writes missing missing missing", "cannot read model"),
    refused("log, an option of another subcommand", f"log --continue kept {OF}"),
    refused("replay, two files", f"replay {OF}"),
    refused("replay, four files", f"replay {OF} kept kept"),
    refused("no such option", "value --fast model solution"),
    refused("help on no such subcommand", "help valu"),
    refused("a word that is not UTF-8", ["value", b"\xff", "solution"], b"utf-8"),
    refused("a first word that is not UTF-8", [b"v\xc3"]),
    refused("version of a subcommand", "value --version"),
    refused("merge, no edit", f"merge {OF}"),
    refused("merge, 65 edits", f"merge missing missing {' '.join(['solution'] * 65)}", b"64"),
    refused("merge, a history to carry on and a start", "merge --continue fresh --start missing missing missing missing"),
    refused("live, no history to carry on", f"live {OF} in:out", b"--continue"),
    refused("live, no precedences", "live --continue fresh model"),
    refused("live, an option of another subcommand", f"live --continue fresh --start solution {OF}"),
    refused("live, streams without a colon", "live --continue fresh missing missing in:out in", b":"),
    refused("live, streams without an input", "live --continue fresh missing missing :out", b":"),
    refused("live, streams without an output", "live --continue fresh missing missing in:", b":"),
    refused("live, 65 planners", f"live --continue fresh missing missing {' '.join(['in:out'] * 65)}", b"64"),
    fault("live, 64 planners, the colons behind the first of a word", f"live --continue fresh missing missing {' '.join(['in:out:'] * 64)}", "cannot read model"),
    fault("live, streams behind --", "live --continue fresh missing missing -- -in:-out", "cannot read model"),
    fault("live, without streams", "live missing missing --continue fresh", "cannot read model"),
    refused("merge, a number that is none", f"merge --from -1 {OF} solution"),
    refused("merge, a number that is too large", f"merge --from 4294967296 {OF} solution"),
]


def help_of(name):
    """A text of tests/help."""
    with open(os.path.join(os.path.dirname(os.path.abspath(__file__)), "..", "help", f"{name}.txt"), encoding="utf-8") as file:
        return file.read()


SUBCOMMANDS = ["value", "check", "table", "diff", "info", "show", "plan", "replay", "log", "merge", "live"]
HELP = [
    *(says(f"help by {words}", words, help_of("pit")) for words in ("--help", "-h", "help")),
    *(says(f"help by {words}", words, help_of(name)) for name in SUBCOMMANDS for words in (f"{name} --help", f"{name} -h", f"help {name}")),
    says("version", "--version", "pit 1.0.0\n"),
    says("version, short", "-V", "pit 1.0.0\n"),
]

# The greatest numbers of a header are read, and then the rest of it is missing; the next greater are not.
GREATEST = [
    it
    for key, number, following in (
        ("NBLOCKS", "4194304", "4194305"), ("NPERIODS", "1000", "1001"), ("NRESOURCE_SIDE_CONSTRAINTS", "64", "65"), ("DISCOUNT_RATE", "1000", "1000.000001"),
    )
    for it in (
        fault(f"{key} of {number}", "value header solution", "model line 2: missing TYPE", files={"header": f"{key}: {number}\n".encode()}),
        fault(f"{key} of {following}", "value header solution", f"model line 1: bad {key}", files={"header": f"{key}: {following}\n".encode()}),
    )
]

# Files that cannot be opened or read: the line has the input's word, and not the path.
OPENED = [
    fault("no model", "value missing solution", "cannot read model"),
    fault("neither file", "value missing missing", "cannot read model"),
    fault("check, no file at all", "check missing missing missing", "cannot read model"),
    fault("check, the model alone", "check model missing missing", "cannot read precedence"),
    fault("check, no solution", f"check {OF} missing", "cannot read solution"),
    fault("all files are opened before one is read", "value refused missing", "cannot read solution"),
    fault("the model is a folder", "value folder solution", "cannot read model"),
    fault("the solution is a folder", "value model folder", "cannot read solution"),
    fault("both are folders", "value folder folder", "cannot read model"),
    fault("a path through a file", "value model/x solution", "cannot read model"),
    fault("a path that is too long", f"value {'x' * 5000} solution", "cannot read model"),
    says("somebody who may read the model", "value model solution", VALUE, plain_user=True),
    fault("no permission to read the model", "value secret solution", "cannot read model", files={"secret": Held(FILES["model"], 0o000)}, plain_user=True),
]

STREAMS = [
    fault("a closed input and output", "value model solution", "cannot write", given=CLOSED, into=CLOSED),
    # The reader is gone before the program starts.
    fault("a pipe that nobody reads", "value model solution", "cannot write", into=NOBODY),
    says("a fault with a closed standard error", "value missing solution", status=3, error_into=CLOSED),
    says("a refusal to a full standard error", "no_such_command", status=2, error_into="/dev/full"),
    says("an answer with a closed standard error", "value model solution", VALUE, error_into=CLOSED),
]

KIB = 1024
#: It is larger than the memory that the program may take.
LARGE = {"large": Huge(512 * KIB * KIB)}
#: What a text announces takes no memory before it has come: room for profits and limits only where a header is whole.
HEADER = b"TYPE: CPIT\nNBLOCKS: 4194304\nNPERIODS: 1000\nNRESOURCE_SIDE_CONSTRAINTS: 64\n"
MEMORY = [
    fault("no memory for the model", "value large solution", "no memory", files=LARGE, memory=200000 * KIB),
    fault("no memory for the solution", "value model large", "no memory", files=LARGE, memory=200000 * KIB),
    fault("no memory for a script", f"plan {OF} script large", "no memory", files=LARGE, memory=200000 * KIB),
    fault("no memory for a history", f"replay {OF} large", "no memory", files=LARGE, memory=200000 * KIB),
    fault("no memory for a header that is refused", "value announced solution", "model line 5: missing DISCOUNT_RATE",
          files={"announced": HEADER + b"OBJECTIVE_FUNCTION:\n"}, memory=16000 * KIB),
    fault("no memory for coefficients behind a header", "value announced solution", "model line 7: field count",
          files={"announced": HEADER + b"DISCOUNT_RATE: 0.1\nOBJECTIVE_FUNCTION:\nx\n"}, memory=60000 * KIB),
    fault("no memory for predecessors that are announced", "check model announced solution", "precedence line 1: predecessor count",
          files={"announced": b"0 4294967295 1\n"}, memory=16000 * KIB),
]

CASES = [*REFUSED, *HELP, *GREATEST, *OPENED, *STREAMS, *MEMORY]
