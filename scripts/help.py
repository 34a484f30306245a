#!/usr/bin/env python3
"""Makes the manual page, or the completions for bash, of a built `pit` from what its help says.

usage: scripts/help.py manual PIT > pit.1
       scripts/help.py completion PIT > pit.bash
"""
import re
import subprocess
import sys
from collections import namedtuple

# An argument or option: the words in front of its help, such as `<MODEL>` or `--start <FILE>`, and that help.
Entry = namedtuple("Entry", "words help")
# What one help says: the usage behind the program's name, the entries by their list, and the paragraphs of its notes.
Page = namedtuple("Page", "about usage commands arguments options notes")


def said(pit, *words):
    return subprocess.run([pit, *words], check=True, capture_output=True, text=True).stdout


def page_of(text):
    blocks = [it.split("\n") for it in re.split(r"\n\s*\n", text.strip("\n"))]
    lists, notes, usage = {}, [], ""
    for block in blocks[1:]:
        head = block[0]
        if head.startswith("Usage: pit"):
            usage = head[len("Usage: pit"):].strip()
        elif head in ("Commands:", "Arguments:", "Options:"):
            lists[head] = entries(block[1:])
        else:
            notes.append(block)
    if not usage or not notes:
        sys.exit("help.py: the help has another form than was known")
    return Page(" ".join(blocks[0]), usage, *(lists.get(it, []) for it in ("Commands:", "Arguments:", "Options:")), notes)


def entries(lines):
    """The words of an entry begin within eight columns; its help stands behind two blanks, or in deeper lines."""
    found = []
    for line in lines:
        if re.match(r" {2,6}\S", line):
            words, _, help_ = line.strip().partition("  ")
            found.append(Entry(words, help_.strip()))
        else:
            last = found.pop()
            found.append(Entry(last.words, f"{last.help} {line.strip()}".strip()))
    return found


def names_of(option):
    """The names of an option: of `-h, --help` two, of `--start <FILE>` one."""
    return re.findall(r"--?[\w-]+", option.words)


# The manual page.


def plain(text):
    """The text as roff takes it: no escape, no hyphen that may break, and no line that is read as a request."""
    text = text.replace("docs/FORMATS.md", "FORMATS.md").replace("\\", "\\e").replace("-", "\\-").replace("'", "\\(aq").replace("`", "\\(ga")
    return re.sub(r"^\.", r"\\&.", text)


def shown(text):
    """Plain text in which what stands between backticks is bold."""
    parts = text.split("`")
    return "".join(f"\\fB{plain(it)}\\fR" if at % 2 else plain(it) for at, it in enumerate(parts)) if len(parts) % 2 else plain(text)


def paragraph(lines):
    """Lines that are indented keep their form."""
    rows, is_kept = [".PP"], False
    for line in lines:
        if line.startswith("  ") != is_kept:
            is_kept = not is_kept
            rows.append(".RS 2\n.nf" if is_kept else ".fi\n.RE")
        rows.append(plain(line[2:]) if is_kept else shown(line))
    return rows + [".fi\n.RE"] * is_kept


def item(words, help_):
    return [".TP", f"\\fB{plain(words)}\\fR", shown(help_)]


def is_of(word):
    return lambda block: block[0].startswith(word)


def manual(top, pages, version):
    rows = [f'.TH PIT 1 "" "{plain(version)}" "User Commands"', ".SH NAME"]
    rows += [f"pit \\- {plain(top.about[0].lower() + top.about[1:])}", ".SH SYNOPSIS"]
    for name, page in pages.items():
        rows += [f"\\fBpit {plain(page.usage)}\\fR", ".br"]
    rows += ["\\fBpit help\\fR [COMMAND]", ".SH DESCRIPTION"]
    is_status, is_example = is_of("Status:"), is_of("Example")
    for block in top.notes:
        rows += [] if is_status(block) else paragraph(block)
    rows.append(".SH COMMANDS")
    for name, page in pages.items():
        rows += [f".SS pit {plain(name)}", shown(page.about) + "."]
        for block in page.notes:
            rows += [] if is_status(block) or is_example(block) else paragraph(block)
        for it in page.arguments + page.options:
            rows += item(it.words, it.help)
    files = {}
    for page in pages.values():
        for it in page.arguments + [it for it in page.options if "<FILE>" in it.words]:
            files.setdefault(it.words, it.help)
    rows.append(".SH FILES")
    for words, help_ in files.items():
        rows += item(words, help_)
    rows.append(".SH EXIT STATUS")
    for name, page in {"": top, **pages}.items():
        for block in filter(is_status, page.notes):
            text = " ".join(block)[len("Status:"):].strip()
            rows += item(f"pit {name}", text) if name else [".PP", shown(text[0].upper() + text[1:])]
    rows.append(".SH EXAMPLES")
    for page in pages.values():
        for block in filter(is_example, page.notes):
            rows += paragraph(block[1:])
    rows += [".SH SEE ALSO", "\\fIshare/doc/pit/FORMATS.md\\fR, below the folder that the program was installed into: each form, fault line and status."]
    return "\n".join(rows)


# The completions.

COMPLETION = """\
# Completions of `pit` for bash, made from its help.
_pit() {
    local cur=${COMP_WORDS[COMP_CWORD]} prev=${COMP_WORDS[COMP_CWORD - 1]} command='' word words=''
    # `--start=FILE` comes as three words.
    if [[ $cur == = ]]; then
        cur=''
    elif [[ $prev == = ]]; then
        prev=${COMP_WORDS[COMP_CWORD - 2]}
    fi
    for word in "${COMP_WORDS[@]:1:COMP_CWORD-1}"; do
        [[ $word == -* ]] || { command=$word; break; }
    done
    COMPREPLY=()
    case $command:$prev in
@VALUES@
    esac
    case $command in
@WORDS@
    esac
    if [[ $cur == -* || -z $command || $command == help ]]; then
        mapfile -t COMPREPLY < <(compgen -W "$words" -- "$cur")
    else
        # So that a folder gets a slash, and a blank its backslash; there is none of it outside of a completion.
        compopt -o filenames 2>/dev/null
        mapfile -t COMPREPLY < <(compgen -f -- "$cur")
    fi
}
complete -F _pit pit"""


def completion(top, pages):
    commands = [it.words for it in top.commands]
    words = []
    # Behind an option that takes no file nothing is completed.
    values = [
        f"        {name}:{it}) return ;;"
        for name, page in pages.items()
        for option in page.options
        if "<" in option.words and "<FILE>" not in option.words
        for it in names_of(option)
    ]
    own = lambda page: [it for option in page.options for it in names_of(option)]
    words.append(f"        '') words='{' '.join(commands + own(top))}' ;;")
    words.append(f"        help) words='{' '.join(commands)}' ;;")
    words += [f"        {name}) words='{' '.join(own(page))}' ;;" for name, page in pages.items()]
    return COMPLETION.replace("@VALUES@", "\n".join(values)).replace("@WORDS@", "\n".join(words))


def main():
    if len(sys.argv) != 3 or sys.argv[1] not in ("manual", "completion"):
        sys.exit(__doc__)
    what, pit = sys.argv[1:]
    top = page_of(said(pit, "--help"))
    pages = {it.words: page_of(said(pit, it.words, "--help")) for it in top.commands if it.words != "help"}
    print(manual(top, pages, said(pit, "--version").strip()) if what == "manual" else completion(top, pages))


if __name__ == "__main__":
    main()
