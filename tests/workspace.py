"""The rules of docs/SCRIPT.md on words, paths and texts, and the writes of a session's replicas.

Nothing here knows what a build finds or a program prints.
"""
import re

LONGEST_SCRIPT = 16_777_216
# How many words stand behind each command; a build has two for each of at most 64 targets.
COUNTS = {
    **{b"replica": 1, b"write": 3, b"remove": 2, b"apply": 5, b"merge": 2, b"settle": 0},
    **{b"show": 1, b"run": 3, b"ids": 2, b"edition": 1},
}
MOST_TARGETS = 64
GREATEST = 2**64 - 1
MOST_REPLICAS = 64
LONGEST_PATH = 200
# how many bytes a text has at most, by edition
LONGEST_TEXTS = {1: 1_048_576, 2: 4_194_304}
MARK = b"\xef\xbb\xbf"
REFUSALS = {
    1: ("command", "the line is no command: unknown, a wrong count of words, a bad name or number, or a 65th replica or target"),
    2: ("replica", "no replica has that name"),
    3: ("exists", "a replica has that name already"),
    4: ("path", "that is no path of a file"),
    5: ("nofile", "the replica holds no text at that path"),
    6: ("counter", "the replica holds the greatest counter that there is, so that none is left for an edit"),
    7: ("text", "the text isn't UTF-8 or no text of a source, or the script ends before it"),
    8: ("nopackage", "the directory has no files of a package"),
    9: ("notbuilt", "no compiled program is held of the directory as it is: not built, with a fault, or not main"),
}


def is_counted(command, words):
    """Whether so many words may stand behind a command."""
    if command == b"build":
        return len(words) in range(2, 2 * MOST_TARGETS + 1, 2)
    return COUNTS.get(command) == len(words)


class Lines:
    """The lines of a script that aren't read yet."""

    def __init__(self, script):
        self.lines = script.split(b"\n")
        # where nothing follows the last newline no line begins
        if self.lines[-1] == b"":
            self.lines.pop()
        self.at = 0

    def __bool__(self):
        return self.at < len(self.lines)

    def line(self):
        self.at += 1
        return self.lines[self.at - 1]

    def words(self):
        """The words of the next line, and its number from 1."""
        line = self.line()
        return [it for it in line.removesuffix(b"\r").split(b" ") if it], self.at

    def text(self, count):
        """The text of the next lines, or nothing where there are fewer."""
        end = min(self.at + count, len(self.lines))
        taken, lacks = self.lines[self.at : end], end < self.at + count
        self.at = end
        return None if lacks else b"".join(line + b"\n" for line in taken)


class Refused(Exception):
    """The number of a refusal."""


def number(word, least=0, most=GREATEST):
    """The number that a word is, or refusal 1."""
    if not re.fullmatch(rb"[0-9]+", word) or not least <= int(word) <= most:
        raise Refused(1)
    return int(word)


def name_of(word):
    """The replica's name that a word is, or refusal 1."""
    if not re.fullmatch(rb"[A-Za-z0-9_-]{1,32}", word):
        raise Refused(1)
    return word


def edition_of(word):
    """The edition that a word is, or refusal 1."""
    return number(word, min(LONGEST_TEXTS), max(LONGEST_TEXTS))


def targets_of(words):
    """The names and directories that a build's words are, or refusal 1."""
    return [(name_of(name), at) for name, at in zip(words[::2], words[1::2])]


def is_path(word):
    elements = word.split(b"/")
    are_elements = all(re.fullmatch(rb"[A-Za-z0-9_.-]+", it) and it not in (b".", b"..") for it in elements)
    is_go = elements[-1].endswith(b".go") and len(elements[-1]) > 3
    is_reserved = directory(word) in (b"fmt", b"C")
    return len(word) <= LONGEST_PATH and len(elements) > 1 and are_elements and is_go and not is_reserved


def directory(path):
    return path.rpartition(b"/")[0]


def file_name(path):
    return path.rpartition(b"/")[2]


def is_of_package(name):
    """Whether a file of that name is part of a build."""
    return name[:1] not in (b".", b"_") and not name.endswith(b"_test.go")


def text_error(text, edition=1):
    """Why these bytes are no text of a source of an edition, or nothing."""
    try:
        text.decode("utf-8")
    except UnicodeDecodeError as error:
        return f"not UTF-8, at byte {error.start + 1}"
    if len(text) > LONGEST_TEXTS[edition]:
        return f"too long, {len(text)} bytes of at most {LONGEST_TEXTS[edition]}"
    if b"\0" in text:
        return f"a NUL, at byte {text.index(0) + 1}"
    if MARK in text[1:]:
        return f"a byte order mark behind the start, at byte {text.index(MARK, 1) + 1}"
    return None


class Replica:
    """What is held at each path: counter, number and text, with None for a removal."""

    def __init__(self, replica_number):
        self.number, self.held, self.top = replica_number, {}, 0

    def take(self, path, counter, by, text):
        order = lambda it: (it[0], it[1], it[2] is not None, it[2] or b"")
        write = counter, by, text
        self.held[path] = max(self.held.get(path, write), write, key=order)
        self.top = max(self.top, counter)

    def edit(self, path, text):
        """An edit or a removal of its own."""
        if self.top == GREATEST:
            raise Refused(6)
        return path, self.top + 1, self.number, text

    def merge(self, other):
        for path, write in list(other.held.items()):
            self.take(path, *write)

    def files(self, at):
        """Of the directory's package: names and texts, in byte order of names."""
        there = [(path, text) for path, (_, _, text) in sorted(self.held.items()) if directory(path) == at]
        return [(file_name(path), text) for path, text in there if text is not None and is_of_package(file_name(path))]


class Workspace:
    """The replicas of a session as far as their writes go, and the edition that commands go by."""

    def __init__(self):
        self.replicas, self.edition = {}, 1

    def replica(self, name):
        if name not in self.replicas:
            raise Refused(2)
        return self.replicas[name]

    def step(self, words, lines):
        """Takes a command that isn't build, run or show; raises its refusal."""
        getattr(self, "do_" + words[0].decode())(lines, *words[1:])

    def do_replica(self, _, word):
        name = name_of(word)
        if len(self.replicas) == MOST_REPLICAS:
            raise Refused(1)
        if name in self.replicas:
            raise Refused(3)
        self.replicas[name] = Replica(len(self.replicas) + 1)

    def do_write(self, lines, word, path, count):
        name, text = name_of(word), lines.text(number(count))
        replica = self.replica(name)
        if not is_path(path):
            raise Refused(4)
        write = replica.edit(path, text)
        if text is None or text_error(text, self.edition):
            raise Refused(7)
        replica.take(*write)

    def do_remove(self, _, word, path):
        replica = self.replica(name_of(word))
        if not is_path(path):
            raise Refused(4)
        if replica.held.get(path, (0, 0, None))[2] is None:
            raise Refused(5)
        replica.take(*replica.edit(path, None))

    def do_apply(self, lines, word, path, counter, by, count):
        name, version = name_of(word), (number(counter, 1), number(by, 1, 2**32 - 1))
        is_removal = count == b"-"
        text = None if is_removal else lines.text(number(count))
        replica = self.replica(name)
        if not is_path(path):
            raise Refused(4)
        if not is_removal and (text is None or text_error(text, self.edition)):
            raise Refused(7)
        replica.take(path, *version, text)

    def do_edition(self, _, word):
        self.edition = edition_of(word)

    def do_merge(self, _, word, other):
        name, other = name_of(word), name_of(other)
        self.replica(name).merge(self.replica(other))

    def do_settle(self, _):
        whole = Replica(0)
        for replica in self.replicas.values():
            whole.merge(replica)
        for replica in self.replicas.values():
            replica.merge(whole)
