"""What the scripts of bench/ have in common: where the programs are, runs of commands, and what they took."""
import os
import re
import shutil
import subprocess
import sys
import tempfile
import time
from dataclasses import dataclass

sys.dont_write_bytecode = True
TOP = os.path.dirname(os.path.dirname(os.path.abspath(__file__)))
sys.path.insert(0, os.path.join(TOP, "tools"))
import kit

PROGRAM = kit.program_file("goset")


def program(words=()):
    """The program that is the first of some words, or the proved one."""
    return os.path.abspath(words[0]) if words else kit.proved_program()


def go_words(program, *files):
    """The words by which a program runs Go files."""
    return [program, "run", *files]


def written(folder, name, text):
    """The path of a file with this text."""
    path = os.path.join(folder, name)
    os.makedirs(os.path.dirname(path), exist_ok=True)
    with open(path, "w", encoding="utf-8", newline="\n") as file:
        file.write(text)
    return path


@dataclass
class Ran:
    """What a run took: seconds on the clock and of processors, and the peak memory in bytes; and what it printed."""

    seconds: float
    processor: float
    peak: int
    printed: bytes


def run(command, stdin=os.devnull, **how):
    """Runs a command on a file. Ends with a sentence where it fails."""
    with open(stdin, "rb") as source, tempfile.TemporaryFile() as sink:
        start = time.perf_counter()
        with subprocess.Popen(command, stdin=source, stdout=sink, **how) as child:
            _, status, used = os.wait4(child.pid, 0)
            seconds = time.perf_counter() - start
            child.returncode = os.waitstatus_to_exitcode(status)
        if child.returncode != 0:
            sys.exit(f"{' '.join(command[:3])} ended with status {child.returncode}")
        sink.seek(0)
        return Ran(seconds, used.ru_utime + used.ru_stime, used.ru_maxrss * 1024, sink.read())


def runs(count, command, stdin=os.devnull, **how):
    """So many runs as if they were one: the least of the times, the greatest peak, and what the last one printed."""
    every = [run(command, stdin, **how) for _ in range(count)]
    return Ran(min(it.seconds for it in every), min(it.processor for it in every), max(it.peak for it in every), every[-1].printed)


def peak_so_far(pid):
    """The peak memory of a process in bytes as the system tells it, or 0 where it has ended. (That of a run has what this script holds when it starts it.)"""
    try:
        with open(f"/proc/{pid}/status", encoding="ascii") as status:
            return next((int(line.split()[1]) * 1024 for line in status if line.startswith("VmHWM")), 0)
    except (FileNotFoundError, ProcessLookupError):
        return 0


def instructions(command, stdin=os.devnull, inside=None):
    """The instructions of a run, in all or inside a function, and what it printed; none where there is no valgrind."""
    if shutil.which("valgrind") is None:
        return None, b""
    only = [f"--toggle-collect={inside}"] if inside else []
    with open(stdin, "rb") as source:
        whole = ["valgrind", "--tool=callgrind", f"--callgrind-out-file={os.devnull}", *only, *command]
        done = subprocess.run(whole, stdin=source, capture_output=True, check=True)
    return int(re.search(rb"Collected : (\d+)", done.stderr)[1]), done.stdout


def net(seconds, without):
    """What some seconds are without others, and never nothing, so that a ratio to them can be had."""
    return max(seconds - without, 1e-6)


def crates_beside(folder, name, text, deps):
    """Writes to a folder a crate with a program, and copies of the crates that it stands on with what is proved of them; where the crate is."""
    below = {it for dep in deps for it in kit.needed(dep)}
    with open(os.path.join(TOP, "crates.txt"), encoding="utf-8") as file:
        lines = [line for line in file if line.partition(":")[0] in below]
    written(folder, "crates.txt", f"{''.join(lines)}{name}: {' '.join(deps)}\n")
    shutil.copy(os.path.join(TOP, "HANDLES"), folder)
    for crate in below:
        for part in (*kit.PARTS, os.path.join("out", "rlib")):
            made = os.path.join(TOP, "crates", crate, part)
            if os.path.isdir(made):
                shutil.copytree(made, os.path.join(folder, "crates", crate, part))
    own = os.path.join(folder, "crates", name)
    written(own, "src/main.rt", text)
    subprocess.run(["git", "init", "-q", folder], check=True)
    return own


def built_beside(own, *words):
    """Proves and builds such a crate, and runs it on words that give it nothing to do; where the program is."""
    print("proving and building, which takes a while", file=sys.stderr)
    made = subprocess.run(["rt", "run", "--", *words], cwd=own, stdin=subprocess.DEVNULL, capture_output=True, text=True, check=False)
    if made.returncode != 0:
        sys.exit(made.stdout + made.stderr)
    return os.path.join(own, "out", os.path.basename(own))
