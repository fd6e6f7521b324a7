"""What the tools that start the Rattle kit have in common: crates and their sources, turns, and commands that end with whoever started them.

Other files of tools/ import it; nothing here knows what a program prints.
"""
import contextlib
import fcntl
import functools
import glob
import hashlib
import importlib.machinery
import importlib.util
import os
import re
import resource
import select
import shutil
import signal
import subprocess
import sys
import time

TOP = os.path.dirname(os.path.dirname(os.path.abspath(__file__)))
PARTS = ("src", "specs", "proofs")
# What the proof of a crate takes that the gate didn't time yet.
MINUTES_OF_A_CRATE = 5
# How often a long work is looked at, and the longest time without a line, where nothing changed in what would be said.
QUIET_SECONDS, SILENT_SECONDS = 10, 60


def say(text):
    print(f"goset: {text}", file=sys.stderr, flush=True)


def misused(page):
    """Tells a tool's page, or what it lacks; the status of that."""
    print(page, end="", file=sys.stderr)
    return 2


def has_kit():
    """Whether there is a kit; says so if there is none."""
    return shutil.which("rt") or say("there is no rt on the path: the Rattle kit is needed, as README.md says")


@functools.lru_cache(maxsize=None)
def folder():
    """The kit's folder: `rt doc` prints the path of a page that stands in it."""
    return os.path.dirname(os.path.realpath(told_by("rt", "doc")))


def loaded(name, path):
    """A file of Python as a module, whatever its name ends in."""
    loader = importlib.machinery.SourceFileLoader(name, path)
    module = importlib.util.module_from_spec(importlib.util.spec_from_loader(name, loader))
    loader.exec_module(module)
    return module


def told_by(*words):
    """What a command prints, or nothing where it isn't there."""
    return subprocess.run(words, cwd=TOP, capture_output=True, text=True, check=False).stdout.strip() if shutil.which(words[0]) else ""


def processors():
    return len(os.sched_getaffinity(0))


def told_minutes(minutes):
    """A number of minutes in words."""
    return "less than a minute" if minutes < 1 else f"about {minutes:.0f} minute{'s' * (round(minutes) != 1)}"


def listed():
    """Each crate of crates.txt, in its order, with the libraries that it stands on, those of the kit, too."""
    with open(os.path.join(TOP, "crates.txt"), encoding="utf-8") as file:
        lines = [line.partition("#")[0].partition(":") for line in file]
    return {name.split()[0]: rest.split() for name, _, rest in lines if name.strip()}


def libraries():
    """Each crate of crates.txt, in its order, with the crates of this repository that it stands on."""
    given = listed()
    return {name: [it for it in rest if it in given] for name, rest in given.items()}


def needed(*names):
    """Some crates, and before them all that they stand on, each behind those below it."""
    given, found = libraries(), {}

    def add(name):
        for it in [it for it in given.get(name, ()) if it not in found]:
            add(it)
        found.setdefault(name)

    for name in names:
        add(name)
    return [*found]


def program_file(program):
    return os.path.join(TOP, "crates", program, "out", program)


def proved_program(program="goset"):
    """Where a proved program is. Whatever needs it ends with a sentence where there is none, which asks for no proof by itself."""
    file, name = program_file(program), os.path.relpath(sys.argv[0], TOP)
    if not os.access(file, os.X_OK):
        sys.exit(misused(f"{name}: there is no program {os.path.relpath(file, TOP)}; ./goset --prove builds it, after its proof\n"))
    return file


def sources_sum(crates, said, parts=PARTS):
    """The SHA-256 of some words, and of the files of some crates."""
    total = hashlib.sha256(said.encode())
    for where in [os.path.join(TOP, "crates", crate, part) for crate in sorted(crates) for part in parts]:
        for name in sorted(filter(os.path.isfile, glob.glob(f"{where}/**/*", recursive=True))):
            with open(name, "rb") as file:
                total.update(f"{os.path.relpath(name, TOP)}\0".encode() + hashlib.sha256(file.read()).digest())
    return total.hexdigest()


def crate_sum(crate):
    """The SHA-256 of a crate's files, and of what it stands on."""
    return sources_sum([crate], " ".join(sorted(listed()[crate])))


def said_of_proofs(program):
    """What the gate proved of the sources of a program that isn't proved here, in a line: proved.txt has the sum of each crate's."""
    try:
        with open(os.path.join(TOP, "proved.txt"), encoding="utf-8") as file:
            noted = dict(line.split(maxsplit=1) for line in file.read().splitlines() if line and not line.startswith("#"))
    except FileNotFoundError:
        return "UNPROVED: no proof of these sources is noted, and this build checks nothing"
    changed = [it for it in needed(program) if noted.get(it) != crate_sum(it)]
    if not changed:
        return f"these sources were proved on {noted['date']} by {noted['kit']}; this build doesn't prove them again"
    return f"UNPROVED: this build checks nothing, and {len(changed)} of its crates changed since the gate of {noted['date']}, as {changed[0]}"


def reckoned(crates):
    """The processor minutes that the proofs of some crates took in the run of the gate that docs/GATE.md tells of."""
    with open(os.path.join(TOP, "docs", "GATE.md"), encoding="utf-8") as file:
        known = dict(re.findall(r"(?m)^\| (\w+) \|[^|\n]*\| (\d+\.\d\d) \|", file.read()))
    return sum(float(known.get(name, MINUTES_OF_A_CRATE)) for name in crates)


class Watch:
    """What is being checked, and what the processors did for it, as /proc shows it: the kit tells of a crate when it is done."""

    def __init__(self, top=TOP):
        self.top, self.seconds = top, {}

    def look(self):
        """Looks, and returns the checks that ended since the last look: what each was, with its processor seconds."""
        now = {}
        for process in filter(str.isdigit, os.listdir("/proc")):
            with contextlib.suppress(OSError, IndexError, ValueError):
                now.setdefault(self.check_of(process), {})[process] = seconds_of(process, 2)
        now.pop(None, None)
        ended = [(check[0], sum(self.seconds.pop(check).values())) for check in [*self.seconds] if check not in now]
        for check, seconds in now.items():
            self.seconds.setdefault(check, {}).update(seconds)
        return ended

    def check_of(self, process):
        """What a process checks, in words and by its folder, or nothing."""
        with open(f"/proc/{process}/cmdline", "rb") as file:
            words = os.fsdecode(file.read()).split("\0")
        if "--crate-name" not in words or "--only" in words:
            return None
        name, where = words[words.index("--crate-name") + 1], os.readlink(f"/proc/{process}/cwd")
        if where == os.path.join(self.top, "crates", name):
            return f"{name}: its tests" if "--test" in words else name, where
        is_edit = os.path.basename(where).startswith("rt-edit-") and os.getsid(int(process)) == os.getsid(0)
        return (f"{name}: an edit", where) if is_edit else None


class Ended(Exception):
    """The number of the signal that ends this command."""


def end_by(main, told=""):
    """Ends with the status that main answers to the words, or behind a line with that of the signal that ends it: INT, TERM, or HUP where it
    isn't ignored. So what was started is ended, too."""
    ending = [signal.SIGINT, signal.SIGTERM] + [signal.SIGHUP] * (signal.getsignal(signal.SIGHUP) != signal.SIG_IGN)

    def end(number, _):
        # a second one doesn't break the ending off
        for it in ending:
            signal.signal(it, signal.SIG_IGN)
        raise Ended(number)

    for it in ending:
        signal.signal(it, end)
    try:
        sys.exit(main(sys.argv[1:]))
    except Ended as why:
        print(f"goset: {told}\n" * bool(told), end="", file=sys.stderr, flush=True)
        sys.exit(128 + why.args[0])


@contextlib.contextmanager
def started(command, **how):
    """A command that is ended where what is done beside it ends early. (The kit ends with it all that it started.)"""
    child = subprocess.Popen(command, **how)
    try:
        yield child
    finally:
        if child.poll() is None:
            child.terminate()
            try:
                child.wait(10)
            except subprocess.TimeoutExpired:
                child.kill()
                child.wait()
        if child.stdout:
            child.stdout.close()


def run_all(commands, look, **how):
    """Runs commands, as many at once as there are processors; all the while calls `look` with what the processors did for them. Returns whether
    one failed."""
    left, running, failed, before = [*commands], [], False, processor_seconds()
    with contextlib.ExitStack() as ending:
        while left or running:
            while left and len(running) < processors():
                running.append(ending.enter_context(started(left.pop(0), stdin=subprocess.DEVNULL, **how)))
            time.sleep(0.05)
            failed = failed or any(it.poll() for it in running)
            running = [it for it in running if it.poll() is None]
            look(processor_seconds() - before + sum(seconds_of(it.pid) for it in running))
    return failed


def seconds_of(process, parts=4):
    """What the processors did so far for a process (2 parts), and for what it started and that ended (4); nothing where it is gone."""
    with contextlib.suppress(OSError), open(f"/proc/{process}/stat", encoding="ascii", errors="replace") as file:
        return sum(map(int, file.read().rpartition(")")[2].split()[11 : 11 + parts])) / os.sysconf("SC_CLK_TCK")
    return 0.0


def processor_seconds():
    """What the processors did so far for commands that this one started and that ended."""
    used = resource.getrusage(resource.RUSAGE_CHILDREN)
    return used.ru_utime + used.ru_stime


def lines_of(child, seconds):
    """The lines that a command prints, and nothing in place of a line where none comes for so many seconds."""
    rest = b""
    while True:
        if not select.select([child.stdout], [], [], seconds)[0]:
            yield None
            continue
        data = os.read(child.stdout.fileno(), 65536)
        *lines, rest = (rest + data).split(b"\n")
        lines += [rest] if rest and not data else []
        yield from (f"{line.decode('utf-8', 'replace')}\n" for line in lines)
        if not data:
            return


class Progress:
    """Which step a work is at, and the minutes that are left, at the pace of the step: what runs beside it slows it down."""

    def __init__(self, name, steps):
        self.name, self.steps, self.looked, self.slower, self.said, self.line = name, steps, time.monotonic(), 1.0, 0.0, ""
        self.begin(next(iter(steps)))

    def begin(self, step):
        self.step, self.begun, self.done = step, time.monotonic(), 0.0

    def left(self):
        """The seconds that are left. A step that has just begun goes at the pace of the one before it."""
        names = [*self.steps]
        if self.done > 1:
            self.slower = max((time.monotonic() - self.begun) / self.done, 1.0)
        rest = sum(self.steps[it] for it in names[names.index(self.step) + 1 :])
        return (rest + max(self.steps[self.step] - self.done, 0.0)) * self.slower

    def look(self, done=0.0, more=""):
        """Notes how many of the step's seconds are done, and says how far it is, if that changed and it is time for it."""
        self.done, now = done or self.done, time.monotonic()
        if now - self.looked < QUIET_SECONDS:
            return
        self.looked, step = now, [*self.steps].index(self.step) + 1
        line = f"{self.name}: {self.step}{more} (step {step} of {len(self.steps)}); {told_minutes(self.left() / 60)} left"
        if line != self.line or now - self.said >= SILENT_SECONDS:
            self.line, self.said = line, now
            say(line)


def whose_turn(name, file=None):
    """Who has a turn, or nothing where nobody has it, and then a file that is handed over takes it."""
    with contextlib.suppress(FileNotFoundError), contextlib.ExitStack() as ending:
        file = file or ending.enter_context(open(os.path.join(TOP, "out", name), "a+", encoding="utf-8"))
        try:
            return fcntl.flock(file, fcntl.LOCK_EX | fcntl.LOCK_NB)
        except BlockingIOError:
            file.seek(0)
            return f"another ./goset, {file.read() or 'which begins just now'}"


@contextlib.contextmanager
def turn(name, what):
    """Waits until no other ./goset of this checkout does what needs this turn, and says for whom it waits."""
    os.makedirs(os.path.join(TOP, "out"), exist_ok=True)
    with open(os.path.join(TOP, "out", name), "a+", encoding="utf-8") as file:
        who = whose_turn(name, file)
        if who:
            say(f"{who}; this one waits for it, and Ctrl-C ends it")
            fcntl.flock(file, fcntl.LOCK_EX)
        file.truncate(0)
        file.write(f"process {os.getpid()}, is {what} since {time.strftime('%H:%M')}")
        file.flush()
        try:
            yield
        finally:
            file.truncate(0)
