"""Runs of the built program, and whether they end as they must."""

import subprocess
import sys
from pathlib import Path
from typing import NamedTuple

TOP = Path(__file__).resolve().parent.parent
PROGRAM = TOP / "crates/world/out/world"
SECONDS = 60  # a run that takes longer has failed


class Ending(NamedTuple):
    """How a run ended: its status, its standard output and its standard error."""

    status: int
    output: bytes
    told: bytes


def run(words, program=PROGRAM, text=None, seconds=SECONDS, **streams):
    """Runs the program with these words, on this text where there is one. What a stream takes that was
    handed in counts as nothing."""
    streams = {"stdout": subprocess.PIPE, "stderr": subprocess.PIPE} | streams
    ended = subprocess.run([program, *words], input=text, timeout=seconds, **streams)
    return Ending(ended.returncode, ended.stdout or b"", ended.stderr or b"")


def short(value):
    """A value as it is told: of a long text its front and its length."""
    if isinstance(value, bytes) and len(value) > 60:
        return f"{value[:60]!r}.. of {len(value)} bytes"
    return repr(value)


class Trials:
    """Runs that are compared with what they must be. What differs is printed, and nothing else."""

    def __init__(self):
        self.failed = False

    def run(self, words, **how):
        """Runs what is tried: the built program."""
        return run(words, **how)

    def fail(self, message):
        """Tells what is wrong."""
        print(message)
        self.failed = True

    def compare(self, name, ended, expected):
        """Compares how a run of this name ended with how it must end."""
        for part in Ending._fields:
            found, wanted = getattr(ended, part), getattr(expected, part)
            if found != wanted:
                self.fail(f"{name}: {part} is {short(found)}, not {short(wanted)}")

    def finish(self):
        """Ends the script: with status 1 where a run differed."""
        sys.exit(int(self.failed))
