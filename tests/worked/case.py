"""A worked example: words of a command, and what has to come of them."""
import dataclasses


@dataclasses.dataclass(frozen=True)
class Some:
    """Stands for any text that is not empty, or that holds this part in small or capital letters."""
    part: bytes = b""


# What may lie in a folder beside files, which are their bytes.


@dataclasses.dataclass(frozen=True)
class Held:
    """A file with these permissions and this group, where a number is said."""
    text: bytes
    mode: int = None
    group: int = None


@dataclasses.dataclass(frozen=True)
class Huge:
    """A file of so many zero bytes, which takes no room."""
    size: int


@dataclasses.dataclass(frozen=True)
class Folder:
    """A folder. One with permissions gets them once what is in it lies there."""
    mode: int = None


@dataclasses.dataclass(frozen=True)
class Link:
    """A symbolic link to this path."""
    to: str


@dataclasses.dataclass(frozen=True)
class Hard:
    """Another name of this file."""
    to: str


@dataclasses.dataclass(frozen=True)
class Fifo:
    """A named pipe that nobody opens."""


@dataclasses.dataclass(frozen=True)
class Pipe:
    """No file: the name among the words becomes that of a pipe from which these bytes come. As what is left, those that went into a pipe."""
    text: bytes = None


#: A stream that is closed before the program starts, and an output that is a pipe that nobody reads.
CLOSED, NOBODY = "closed", "nobody"


@dataclasses.dataclass
class Case:
    #: What the case shows.
    about: str
    #: The words behind the program's name.
    words: list
    out: bytes = b""
    err: bytes = b""
    status: int = 0
    #: Files beside those of the theme, or in place of them. None stands for one of the theme that isn't there.
    files: dict = dataclasses.field(default_factory=dict)
    #: What else files hold when it has ended, and which are then gone (None). All others are as they were, and no other is there.
    left: dict = dataclasses.field(default_factory=dict)
    #: Whether standard error is a terminal. What comes there is compared without the carriage returns that a terminal adds.
    terminal: bool = False
    #: The path of a device that is its output, or CLOSED or NOBODY; what it takes isn't compared. And the same of standard error.
    into: str = ""
    error_into: str = ""
    #: What comes on standard input, or CLOSED.
    given: bytes = b""
    #: How much memory it may take, and how long a file may be that it writes. Bytes.
    memory: int = 0
    longest: int = 0
    #: Names in its environment.
    environment: dict = dataclasses.field(default_factory=dict)
    #: Which permissions new files don't have.
    umask: int = None
    #: A file of another program, made and locked while the case runs. In what is wanted of standard error, {who} says who it is.
    locked: str = ""
    #: Whether it runs as somebody who may not read and write every file.
    plain_user: bool = False


def words_of(words):
    return words.split() if isinstance(words, str) else list(words)


def says(about, words, out="", err="", status=0, **more):
    """A run that prints these texts."""
    return Case(about, words_of(words), out.encode(), err.encode(), status, **more)


def fault(about, words, line, **more):
    """A run that ends with the line of a fault: status 3 where a file, an output or memory is at fault, and 2 where a text is."""
    status = 3 if line.startswith(("cannot ", "no memory", "history is in use")) else 2
    return Case(about, words_of(words), b"", f"pit: {line}\n".encode(), status, **more)


def refused(about, words, part=b"", **more):
    """A run whose words are refused, with a text that is the parser's own, or that has this part."""
    return Case(about, words_of(words), b"", Some(part), 2, **more)
