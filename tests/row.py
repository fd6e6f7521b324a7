"""What the rows of tests/tools have in common: rows, files, commands that are run, and what is asserted of them."""
import os
import subprocess
import sys

TOP = os.path.dirname(os.path.dirname(os.path.abspath(__file__)))
ROWS = []


def row(test):
    """A test that takes an empty folder and asserts."""
    ROWS.append(test)
    return test


def written(folder, files):
    """Writes files, by name and text."""
    for name, text in files.items():
        path = os.path.join(folder, name)
        os.makedirs(os.path.dirname(path), exist_ok=True)
        with open(path, "wb") as file:
            file.write(text if isinstance(text, bytes) else text.encode())


def ran(*command, given=b"", folder=None, path=None):
    """Runs a command and returns its status, and what it printed and complained."""
    environment = dict(os.environ, PATH=f"{path}:{os.environ['PATH']}") if path else None
    how = {"cwd": folder, "env": environment, "capture_output": True, "check": False, "timeout": 300}
    done = subprocess.run(command, input=given, **how)
    return done.returncode, done.stdout.decode("utf-8", "replace"), done.stderr.decode("utf-8", "replace")


def tool(name, *words, **how):
    return ran(sys.executable, os.path.join(TOP, "tools", name), *words, **how)


def same(got, wanted):
    assert got == wanted, f"\nwanted {wanted!r}\ngot    {got!r}"


def has(text, *parts):
    for part in parts:
        assert part in text, f"no {part!r} in {text!r}"
